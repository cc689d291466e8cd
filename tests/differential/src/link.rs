//! The link (PROTOCOL 9): one command waits at a time. It is sent again when its time is up, and given up in the end.

/// Commands that the box sends on its own and that wait for an answer.
pub const SENDABLE: [u8; 9] = [0x05, 0x09, 0x0B, 0x13, 0x15, 0x17, 0x1B, 0x27, 0x29];
const MAX_REPEATS: u8 = 2;
const TIMEOUT: u32 = 200;
/// From here on a clock counts as turned back.
const HALF_CLOCK: u32 = 1 << 31;

#[derive(Clone, Copy, PartialEq, Eq, Debug)]
pub struct Waiting {
    pub command: u8,
    pub number: u8,
    pub sent: u32,
    pub repeats: u8,
}

#[derive(Clone, Copy, PartialEq, Eq, Debug)]
pub struct Link {
    pub next: u8,
    pub waiting: Option<Waiting>,
}

#[derive(Clone, Copy, PartialEq, Eq, Debug)]
pub enum Refusal {
    State = 17,
    Busy = 41,
    Unsent = 42,
    Stray = 43,
}

#[derive(Clone, Copy, PartialEq, Eq, Debug)]
pub enum Tick {
    Nothing,
    Again { command: u8, number: u8 },
    GivenUp { command: u8, number: u8 },
}

impl Link {
    pub fn new() -> Link {
        Link { next: 0, waiting: None }
    }

    /// A command offered at this clock; returns the sequence number that it is sent under.
    pub fn offer(&mut self, command: u8, clock: u32) -> Result<u8, Refusal> {
        self.check()?;
        if !SENDABLE.contains(&command) {
            return Err(Refusal::Unsent);
        }
        if self.waiting.is_some() {
            return Err(Refusal::Busy);
        }
        let number = self.next;
        // 0 comes after 255.
        self.next = number.wrapping_add(1);
        self.waiting = Some(Waiting { command, number, sent: clock, repeats: 0 });
        Ok(number)
    }

    pub fn tick(&mut self, clock: u32) -> Result<Tick, Refusal> {
        self.check()?;
        let Some(waiting) = &mut self.waiting else { return Ok(Tick::Nothing) };
        if !is_due(clock, waiting.sent) {
            return Ok(Tick::Nothing);
        }
        let (command, number) = (waiting.command, waiting.number);
        if waiting.repeats == MAX_REPEATS {
            self.waiting = None;
            return Ok(Tick::GivenUp { command, number });
        }
        waiting.repeats += 1;
        waiting.sent = clock;
        Ok(Tick::Again { command, number })
    }

    /// A frame arrived; returns the command and number that it answers.
    pub fn arrive(&mut self, command: u8, number: u8) -> Result<(u8, u8), Refusal> {
        self.check()?;
        let fits = |waiting: &Waiting| command == waiting.command + 1 && number == waiting.number;
        let answered = self.waiting.take_if(|waiting| fits(waiting)).ok_or(Refusal::Stray)?;
        Ok((answered.command, answered.number))
    }

    /// A link in any state may have fields that no fresh one reaches; its numbers and its clock may be any.
    pub fn is_in_range(&self) -> bool {
        let fits = |waiting: Waiting| SENDABLE.contains(&waiting.command) && waiting.repeats <= MAX_REPEATS;
        self.waiting.is_none_or(fits)
    }

    fn check(&self) -> Result<(), Refusal> {
        if self.is_in_range() {
            Ok(())
        } else {
            Err(Refusal::State)
        }
    }
}

/// Milliseconds between two readings of a clock that wraps.
pub fn elapsed(clock: u32, since: u32) -> u32 {
    clock.wrapping_sub(since)
}

pub fn is_due(clock: u32, sent: u32) -> bool {
    (TIMEOUT..HALF_CLOCK).contains(&elapsed(clock, sent))
}

#[cfg(test)]
mod tests {
    use super::*;

    #[test]
    fn clock_wraps() {
        assert_eq!(elapsed(104, 4_294_967_200), 200);
        assert!(is_due(104, 4_294_967_200));
        assert!(!is_due(103, 4_294_967_200));
        assert!(is_due(HALF_CLOCK - 1, 0));
        assert!(!is_due(HALF_CLOCK, 0));
    }

    #[test]
    fn three_due_ticks_end_a_wait() {
        let mut link = Link::new();
        assert_eq!(link.offer(5, 0), Ok(0));
        for repeat in 1..=2 {
            assert_eq!(link.tick(200 * repeat), Ok(Tick::Again { command: 5, number: 0 }));
        }
        assert_eq!(link.tick(600), Ok(Tick::GivenUp { command: 5, number: 0 }));
        assert_eq!(link, Link { next: 1, waiting: None });
    }

    #[test]
    fn numbers_begin_again_at_0() {
        let mut link = Link::new();
        for number in (0..=255).chain([0, 1]) {
            assert_eq!(link.offer(5, 0), Ok(number));
            assert_eq!(link.arrive(6, number), Ok((5, number)));
        }
    }

    #[test]
    fn ranges() {
        let link = |command, repeats| Link { next: 0, waiting: Some(Waiting { command, number: 0, sent: 0, repeats }) };
        for (command, repeats) in [(5, 3), (5, 255), (6, 0)] {
            let mut refused = link(command, repeats);
            assert_eq!(refused.offer(5, 200), Err(Refusal::State));
            assert_eq!(refused.tick(200), Err(Refusal::State));
            assert_eq!(refused.arrive(command + 1, 0), Err(Refusal::State));
            assert_eq!(refused, link(command, repeats));
        }
        for repeats in 0..=2 {
            assert_eq!(link(5, repeats).offer(5, 200), Err(Refusal::Busy));
            assert_eq!(link(5, repeats).arrive(6, 0), Ok((5, 0)));
        }
        assert_eq!(link(5, 1).tick(200), Ok(Tick::Again { command: 5, number: 0 }));
        assert_eq!(link(5, 2).tick(200), Ok(Tick::GivenUp { command: 5, number: 0 }));
    }
}
