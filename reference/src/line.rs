//! The line: its trains, its controllers and the messages that were sent, and what an event does to them.

use crate::braking::{Blur, Brake, Braking};
use crate::controller::Controller;
use crate::event::Event;
use crate::gaps::Gaps;
use crate::head::Head;
use crate::impossible::Impossible;
use crate::message::Message;
use crate::refusal::Refusal;
use crate::train::Train;
use crate::unit::Answer;
use crate::{MOST_CONTROLLERS, MOST_TRAINS};

#[derive(Clone, Debug)]
pub struct Line {
    braking: Braking,
    trains: Vec<Train>,
    controllers: Vec<Controller>,
    messages: Vec<Message>,
    gaps: Gaps,
}

/// What is told of a tick.
#[derive(Clone, Copy, Debug, PartialEq, Eq)]
pub struct Ticked {
    pub train: usize,
    pub answer: Answer,
    pub speed: u64,
    pub front: u64,
}

/// Why an event was not done.
#[derive(Clone, Debug, PartialEq, Eq)]
pub enum Undone {
    Impossible(Impossible),
    NoMemory,
}

impl From<Impossible> for Undone {
    fn from(impossible: Impossible) -> Self {
        Self::Impossible(impossible)
    }
}

impl Line {
    pub fn new(head: &Head) -> Result<Self, Refusal> {
        let braking = Braking {
            brake: Brake::new(head.brake.unwrap_or(0))?,
            blur: Blur::new(head.blur.unwrap_or(101))?,
        };
        if head.trains.len() > MOST_TRAINS {
            return Err(Refusal::TooManyTrains);
        }
        let controllers = match head.controllers.unwrap_or(MOST_CONTROLLERS) {
            count @ 0..=MOST_CONTROLLERS => (0..count).map(|_| Controller::new()).collect(),
            _ => return Err(Refusal::TooManyControllers),
        };
        let mut trains: Vec<Train> = Vec::with_capacity(head.trains.len());
        for (train, start) in head.trains.iter().enumerate() {
            let standing = Train::standing(start, trains.last())
                .map_err(|why| Refusal::NotInitial { train, why })?;
            trains.push(standing);
        }
        let gaps = Gaps::between(&trains);
        Ok(Self {
            braking,
            trains,
            controllers,
            messages: Vec::new(),
            gaps,
        })
    }

    pub fn gaps(&self) -> Gaps {
        self.gaps
    }

    /// Does an event, or changes nothing where it cannot be.
    #[inline]
    pub fn step(&mut self, event: Event) -> Result<Option<Ticked>, Undone> {
        let mut ticked = None;
        match event {
            Event::Tick { train, wish, speed } => ticked = Some(self.tick(train, wish, speed)?),
            Event::Mark { train } => self.mark(train)?,
            Event::Report { train } => self.report(train)?,
            Event::Hear {
                controller,
                message,
            } => self.hear(controller, message)?,
            Event::Tell { controller, train } => self.tell(controller, train)?,
            Event::Grant { controller, train } => self.grant(controller, train)?,
            Event::Take { message } => self.take(message)?,
            Event::Restart { controller } => self.restart(controller)?,
        }
        self.gaps
            .look(&self.trains, ticked.as_ref().map(|tick| tick.train));
        Ok(ticked)
    }

    #[inline]
    fn tick(&mut self, train: u64, wish: u64, speed: u64) -> Result<Ticked, Impossible> {
        let number = self.train(train)?;
        let train = &mut self.trains[usize::from(number)];
        let (answer, most) = train.ask(self.braking, wish);
        if speed > most {
            return Err(Impossible::SpeedTooHigh { most });
        }
        train.moves(speed, self.braking.blur);
        Ok(Ticked {
            train: usize::from(number),
            answer,
            speed,
            front: train.front(),
        })
    }

    fn mark(&mut self, train: u64) -> Result<(), Impossible> {
        let train = self.train(train)?;
        self.trains[usize::from(train)].mark();
        Ok(())
    }

    fn report(&mut self, train: u64) -> Result<(), Undone> {
        let train = self.train(train)?;
        let place = self.trains[usize::from(train)].report();
        self.send(Message::Report { train, place })
    }

    fn hear(&mut self, controller: u64, message: u64) -> Result<(), Impossible> {
        let controller = self.controller(controller)?;
        let message = self.message(message)?;
        self.controllers[controller].hear(message);
        Ok(())
    }

    fn tell(&mut self, controller: u64, train: u64) -> Result<(), Undone> {
        let controller = self.controller(controller)?;
        let train = self.train(train)?;
        let place = self.controllers[controller].place(train);
        self.send(Message::Report { train, place })
    }

    fn grant(&mut self, controller: u64, train: u64) -> Result<(), Undone> {
        let controller = self.controller(controller)?;
        let ahead = self.train(train)?;
        let behind = self
            .train(train + 1)
            .map_err(|_| Impossible::NoTrainBehind(train))?;
        let place = self.controllers[controller].place(ahead);
        self.send(Message::Grant {
            train: behind,
            place,
        })
    }

    fn take(&mut self, message: u64) -> Result<(), Impossible> {
        match self.message(message)? {
            Message::Report { .. } => Err(Impossible::NoGrant(message)),
            Message::Grant { train, place } => {
                self.trains[usize::from(train)].take(place);
                Ok(())
            }
        }
    }

    fn restart(&mut self, controller: u64) -> Result<(), Impossible> {
        let controller = self.controller(controller)?;
        self.controllers[controller].restart();
        Ok(())
    }

    #[inline]
    fn send(&mut self, message: Message) -> Result<(), Undone> {
        self.messages.try_reserve(1).map_err(|_| Undone::NoMemory)?;
        self.messages.push(message);
        Ok(())
    }

    #[inline]
    fn train(&self, number: u64) -> Result<u8, Impossible> {
        u8::try_from(number)
            .ok()
            .filter(|&train| usize::from(train) < self.trains.len())
            .ok_or(Impossible::NoTrain(number))
    }

    #[inline]
    fn controller(&self, number: u64) -> Result<usize, Impossible> {
        usize::try_from(number)
            .ok()
            .filter(|&controller| controller < self.controllers.len())
            .ok_or(Impossible::NoController(number))
    }

    #[inline]
    fn message(&self, number: u64) -> Result<Message, Impossible> {
        usize::try_from(number)
            .ok()
            .and_then(|message| self.messages.get(message).copied())
            .ok_or(Impossible::NotSentYet(number))
    }
}
