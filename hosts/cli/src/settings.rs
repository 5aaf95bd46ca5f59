//! Draft and window: what the command line gives, and what a state file keeps.

use crate::arguments::Arguments;
use crate::outcome::{Failure, Notes};
use btpu::{Draft, Receiver, WindowSize};
use std::fmt::Display;

/// What the command line says of a receiver.
pub struct Given {
    draft: Option<Draft>,
    window: Option<WindowSize>,
}

impl Given {
    pub fn of(arguments: &Arguments) -> Result<Given, Failure> {
        Ok(Given {
            draft: arguments.draft()?,
            window: arguments.window()?,
        })
    }

    pub fn fresh(&self) -> Receiver {
        let window = self.window.unwrap_or_default();
        Receiver::with_window(self.draft.unwrap_or_default(), window)
    }

    /// Goes on with the receiver of a state file. `before_windows` says that the file does not name its window.
    pub fn go_on(
        &self,
        receiver: &Receiver,
        before_windows: bool,
        notes: &mut Notes,
    ) -> Result<(), Failure> {
        let (draft, window) = (receiver.draft(), receiver.window_size());
        agree("draft", draft, self.draft)?;
        agree("window", window, self.window)?;
        tell("draft", draft, self.draft, notes);
        if before_windows {
            notes.say(format_args!(
                "the state file was stored before windows could be chosen, when every receiver had window \
                 {window}: going on with window {window}"
            ));
        } else {
            tell("window", window, self.window, notes);
        }
        notes.flush();
        Ok(())
    }
}

/// Refuses what differs from the state file.
pub fn agree<T: Display + PartialEq>(name: &str, kept: T, given: Option<T>) -> Result<(), Failure> {
    match given {
        Some(given) if given != kept => Err(Failure::Usage(format!(
            "--{name} {given} differs from the {name} {kept} of the state file: leave --{name} out, or name another state file"
        ))),
        _ => Ok(()),
    }
}

/// Tells what the state file keeps if it is not the default, and the command line does not name it.
pub fn tell<T>(name: &str, kept: T, given: Option<T>, notes: &mut Notes)
where
    T: Default + Display + PartialEq,
{
    if given.is_none() && kept != T::default() {
        notes.say(format_args!(
            "going on with {name} {kept}, the {name} of the state file"
        ));
    }
}
