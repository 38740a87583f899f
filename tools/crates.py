"""The crates of a repository, as its crates.txt names them. Called by other scripts of tools/."""


def read(root):
    """Each crate with all those of the repository below it. Each, there too, comes after those below it."""
    uses = {}
    with open(f"{root}/crates.txt", encoding="utf-8") as lines:
        for line in lines:
            name, colon, below = line.partition("#")[0].partition(":")
            if colon:
                uses[name.split()[0]] = below.split()
    found = {}

    def add(name):
        if name not in found:
            below = []
            for it in uses[name]:
                # the others are the kit's
                if it in uses:
                    add(it)
                    below += [one for one in [*found[it], it] if one not in below]
            found[name] = below

    for name in uses:
        add(name)
    return found
