//! The order of a run's questions.

use crate::answer::Answer;
use crate::http::Payload;
use crate::kind::{ConfigureStage, Hook, Kind, Role};
use crate::names::StopPoint;
use crate::note::Choice;
use crate::standing::Standing;
use crate::world::World;

// Why a part of a run ended before its end.
enum Cut {
    OutOfFuel,
    ByAttempt,
    ByOperation,
}

type Part<T> = Result<T, Cut>;

/// Runs an operation, and answers what stands at its end; None where it needs more questions than
/// `fuel`.
pub fn run<W: World>(
    world: &mut W,
    input: Payload,
    stop: StopPoint,
    fuel: u64,
) -> Option<Standing> {
    let mut run = Run {
        world,
        stop,
        fuel,
        standing: Standing::new(input),
        operation_is_armed: false,
        attempt_is_armed: false,
    };
    match run.whole() {
        Ok(()) => Some(run.standing),
        Err(_) => None,
    }
}

struct Run<'w, W> {
    world: &'w mut W,
    stop: StopPoint,
    // How many questions may still be asked.
    fuel: u64,
    standing: Standing,
    operation_is_armed: bool,
    attempt_is_armed: bool,
}

impl<W: World> Run<'_, W> {
    // Asks one question, and takes the answer in.
    fn ask(&mut self, kind: Kind) -> Part<Answer> {
        if self.fuel == 0 {
            return Err(Cut::OutOfFuel);
        }
        self.fuel -= 1;
        let nanos = match kind {
            Kind::Start(role) => self.standing.nanos_for(role),
            _ => None,
        };
        let answer = self.world.ask(self.standing.question(kind));
        self.standing.take_in(kind, nanos, &answer);
        Ok(answer)
    }

    // Asks until the answer isn't pending. In between the deadlines are asked.
    fn work(&mut self, kind: Kind) -> Part<Answer> {
        loop {
            let answer = self.ask(kind)?;
            if !matches!(answer, Answer::Pending) {
                return Ok(answer);
            }
            self.wait(kind)?;
        }
    }

    // Asks the armed deadlines while a question of this kind is pending, and gives it up where one
    // has passed.
    fn wait(&mut self, kind: Kind) -> Part<()> {
        if self.attempt_is_armed && self.has_passed(Role::Attempt)? {
            self.ask(kind.given_up_by())?;
            return Err(Cut::ByAttempt);
        }
        if self.operation_is_armed && self.has_passed(Role::Operation)? {
            self.ask(kind.given_up_by())?;
            return Err(Cut::ByOperation);
        }
        self.ask(Kind::Park)?;
        Ok(())
    }

    fn has_passed(&mut self, role: Role) -> Part<bool> {
        Ok(matches!(self.ask(Kind::Wait(role))?, Answer::Ready))
    }

    // Asks a question, and answers whether the run goes on: whether the answer is no failure.
    fn passes(&mut self, kind: Kind) -> Part<bool> {
        let answer = self.work(kind)?;
        Ok(!answer.fails(kind, self.standing.view.attempt))
    }

    fn hook_passes(&mut self, hook: Hook) -> Part<bool> {
        self.passes(Kind::Hook(hook))
    }

    fn starts(&mut self, role: Role) -> Part<bool> {
        Ok(matches!(self.ask(Kind::Start(role))?, Answer::Started))
    }

    // Starts a deadline where one is set.
    fn arm(&mut self, role: Role) -> Part<bool> {
        Ok(self.standing.nanos_for(role).is_some() && self.starts(role)?)
    }

    fn whole(&mut self) -> Part<()> {
        if !self.configured()? {
            return Ok(());
        }
        if self.standing.is_failed() {
            self.arm(Role::Operation)?;
        } else {
            self.guarded_operation()?;
        }
        self.ask(Kind::Hook(Hook::ModifyBeforeCompletion))?;
        self.ask(Kind::Hook(Hook::ReadAfterExecution))?;
        Ok(())
    }

    // A hook that fails halts nothing here.
    fn configured(&mut self) -> Part<bool> {
        if !self.passes(Kind::Configure(ConfigureStage::Client))? {
            return Ok(false);
        }
        self.ask(Kind::Hook(Hook::ReadBeforeExecutionClient))?;
        if !self.passes(Kind::Configure(ConfigureStage::Operation))? {
            return Ok(false);
        }
        self.ask(Kind::Hook(Hook::ReadBeforeExecutionOperation))?;
        self.passes(Kind::Configure(ConfigureStage::Final))
    }

    // The operation under its deadline.
    fn guarded_operation(&mut self) -> Part<()> {
        self.operation_is_armed = self.arm(Role::Operation)?;
        match self.operation() {
            Err(Cut::ByOperation) => Ok(()),
            ended => ended,
        }
    }

    fn operation(&mut self) -> Part<()> {
        if self.front()? && matches!(self.grant()?, Some(Answer::Go)) {
            while self.round()? {}
        }
        Ok(())
    }

    // What comes before the first attempt is asked for.
    fn front(&mut self) -> Part<bool> {
        Ok(self.hook_passes(Hook::ModifyBeforeSerialization)?
            && self.hook_passes(Hook::ReadBeforeSerialization)?
            && self.passes(Kind::Serialize)?
            && (!self.standing.loads_body() || self.passes(Kind::Load)?)
            && self.hook_passes(Hook::ReadAfterSerialization)?
            && self.hook_passes(Hook::ModifyBeforeRetryLoop)?)
    }

    // Asks for leave to make an attempt, again after each delay. None where a delay can't be
    // waited for.
    fn grant(&mut self) -> Part<Option<Answer>> {
        loop {
            let answer = self.ask(Kind::Initial)?;
            if !matches!(answer, Answer::Delay(_)) {
                return Ok(Some(answer));
            }
            if !self.starts(Role::Send)? {
                return Ok(None);
            }
            self.work(Kind::Wait(Role::Send))?;
        }
    }

    // An attempt with what is decided after it. Answers whether a further one is made.
    fn round(&mut self) -> Part<bool> {
        let goes_on = match self.turn()? {
            Answer::Decided(Choice::Yes, _) => self.standing.checkpoint.is_some(),
            Answer::Decided(Choice::Delay(_), _) => self.waits_for_retry()?,
            Answer::Decided(Choice::NoAfter(_), _) => {
                self.pause()?;
                false
            }
            _ => false,
        };
        Ok(goes_on && self.has_token()?)
    }

    fn waits_for_retry(&mut self) -> Part<bool> {
        if !self.starts(Role::Retry)? || self.standing.checkpoint.is_none() {
            return Ok(false);
        }
        self.work(Kind::Wait(Role::Retry))?;
        Ok(true)
    }

    fn pause(&mut self) -> Part<()> {
        if self.starts(Role::LongPoll)? {
            self.work(Kind::Wait(Role::LongPoll))?;
        }
        Ok(())
    }

    // Whether a further attempt has its token, where it needs one.
    fn has_token(&mut self) -> Part<bool> {
        Ok(!self.standing.needs_token() || matches!(self.grant()?, Some(Answer::Go | Answer::No)))
    }

    // An attempt under its deadline, its completion, and the decision.
    fn turn(&mut self) -> Part<Answer> {
        self.attempt_is_armed = self.arm(Role::Attempt)?;
        let ended = self.attempt();
        self.attempt_is_armed = false;
        match ended {
            Err(Cut::OutOfFuel) => Err(Cut::OutOfFuel),
            Err(Cut::ByOperation) => {
                self.settle()?;
                Err(Cut::ByOperation)
            }
            Err(Cut::ByAttempt) | Ok(()) => {
                self.settle()?;
                self.ask(Kind::Decide)
            }
        }
    }

    fn attempt(&mut self) -> Part<()> {
        if self.opening()? && self.stop == StopPoint::None && self.sending()? {
            self.streaming()?;
        }
        Ok(())
    }

    fn opening(&mut self) -> Part<bool> {
        Ok(self.hook_passes(Hook::ReadBeforeAttempt)?
            && self.passes(Kind::Choose)?
            && (self.standing.endpoint.is_some() || self.passes(Kind::Endpoint)?)
            && self.passes(Kind::Apply)?
            && self.hook_passes(Hook::ModifyBeforeSigning)?
            && self.hook_passes(Hook::ReadBeforeSigning)?
            && self.passes(Kind::Sign)?
            && self.hook_passes(Hook::ReadAfterSigning)?
            && self.hook_passes(Hook::ModifyBeforeTransmit)?
            && self.hook_passes(Hook::ReadBeforeTransmit)?)
    }

    fn sending(&mut self) -> Part<bool> {
        Ok(self.passes(Kind::Transmit)?
            && self.hook_passes(Hook::ReadAfterTransmit)?
            && self.hook_passes(Hook::ModifyBeforeDeserialization)?
            && self.hook_passes(Hook::ReadBeforeDeserialization)?)
    }

    fn streaming(&mut self) -> Part<()> {
        if matches!(self.ask(Kind::Stream)?, Answer::NotStreaming)
            && matches!(self.work(Kind::Body)?, Answer::Read(_))
        {
            self.ask(Kind::Deserialize)?;
        }
        self.ask(Kind::Hook(Hook::ReadAfterDeserialization))?;
        Ok(())
    }

    // The completion of an attempt, cut or not.
    fn settle(&mut self) -> Part<()> {
        self.ask(Kind::Hook(Hook::ModifyBeforeAttemptCompletion))?;
        self.ask(Kind::Hook(Hook::ReadAfterAttempt))?;
        Ok(())
    }
}
