//! The head of a scenario.

use crate::statement::{self, Statement};
use crate::train::Start;
use crate::words::Lines;
use crate::MOST_TRAINS;

#[derive(Clone, Debug, Default, PartialEq, Eq)]
pub struct Head {
    pub brake: Option<u64>,
    pub blur: Option<u64>,
    pub controllers: Option<u64>,
    /// One more than there can be stands for any number of trains that are too many.
    pub trains: Vec<Start>,
}

impl Head {
    /// Takes the lines of the head, and leaves the first that does not belong to it.
    pub fn read(lines: &mut Lines) -> Self {
        let mut head = Self::default();
        let mut after = lines.clone();
        while let Some((_, line)) = after.next() {
            let belongs = match statement::read(line) {
                Ok(None) => true,
                Ok(Some(statement)) => head.add(statement),
                Err(_) => false,
            };
            if !belongs {
                break;
            }
            *lines = after.clone();
        }
        head
    }

    /// Whether the statement belongs to the head; if so, the head has it afterwards.
    fn add(&mut self, statement: Statement) -> bool {
        let (once, number) = match statement {
            Statement::Brake(brake) => (&mut self.brake, brake),
            Statement::Blur(blur) => (&mut self.blur, blur),
            Statement::Controllers(controllers) => (&mut self.controllers, controllers),
            Statement::Train(start) => {
                if self.trains.len() <= MOST_TRAINS {
                    self.trains.push(start);
                }
                return true;
            }
            Statement::Event(_) => return false,
        };
        let first = once.is_none();
        if first {
            *once = Some(number);
        }
        first
    }
}
