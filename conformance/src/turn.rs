//! Request N4, "A begun body has its turn", over an undamaged list: the calls are read with their answers, never the
//! store. A body that was chosen is the next that commits, whatever cuts, boots and posts come between, and none is
//! chosen before it has. Where it has met 23 or 24, it meets this again after every cut, and nothing commits any more.

use crate::reference::{begun_word, NOTHING_BEGUN};
use crate::runtime::*;
use crate::serial::Serial;

/// Whose turn it is.
#[derive(Clone, Debug, Default)]
pub struct Turn {
    /// The body that was chosen and has not committed.
    begun: Option<Body>,
    /// The refusal 23 or 24 that it has met, and the device then.
    met: Option<(Refusal, Device)>,
}

/// "If word 10 is 0 and the queue isn't empty, the event at head; otherwise the current task".
fn next(serial: &Serial) -> Body {
    match serial.records.front() {
        Some((event, _)) if serial.open == 0 => Body::Event(*event),
        _ => Body::Task(serial.task),
    }
}

impl Turn {
    /// Read the answer of a call, before the serial run does. The device is as the call left it.
    pub fn read(&mut self, answer: &Answer, device: &Device, serial: &Serial) -> Result<(), String> {
        match answer {
            Answer::Chosen(body) => {
                if let Some(begun) = self.begun {
                    return Err(format!("chosen {body:?} while {begun:?} is begun"));
                }
                if *body != next(serial) {
                    return Err(format!("chosen {body:?}, {:?} is next", next(serial)));
                }
                self.begun = Some(*body);
            }
            Answer::Committed(body) => {
                if self.begun != Some(*body) {
                    return Err(format!("committed {body:?}, begun {:?}", self.begun));
                }
                if let Some((refusal, _)) = self.met {
                    return Err(format!("committed {body:?} after {refusal:?}"));
                }
                self.begun = None;
            }
            Answer::Refused(refusal) if matches!(refusal.number, 23 | 24) => {
                let meets = (*refusal, *device);
                if self.met.is_some_and(|met| met != meets) {
                    return Err(format!("{meets:?} after {:?}", self.met));
                }
                self.met = Some(meets);
            }
            _ => {}
        }
        Ok(())
    }

    /// The device that uncut recovery leaves: the begun body at its first instruction, or none.
    pub fn recovered(&self, serial: &Serial) -> Device {
        let Some(body) = self.begun else { return Device::ON };
        let mut device = Device { place: Place::Running { body, instruction: 0, ending: 0 }, ..Device::ON };
        if let (Body::Event(_), Some((_, datum))) = (body, serial.records.front()) {
            device.registers[0] = *datum;
        }
        device
    }

    /// What word 16 says then.
    pub fn word(&self) -> u16 {
        self.begun.map_or(NOTHING_BEGUN, begun_word)
    }
}
