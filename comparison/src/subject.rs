//! What is compared: a machine that runs and loads with everything lent to it.

/// The machine lent to a call: the packed state, memory, page registers and ports.
#[derive(Clone, Debug, Default, PartialEq, Eq)]
pub struct Lent {
    pub state: Vec<u16>,
    pub memory: Vec<u16>,
    pub pages: Vec<u16>,
    pub ports: Vec<u16>,
}

/// One call of an entry point.
#[derive(Clone, Debug)]
pub enum Call {
    Run { budget: u32, durations: Vec<u16> },
    Load(Vec<u8>),
}

/// A machine with the two entry points; both answer 0 or a refusal's number.
pub trait Subject {
    /// Makes `budget` steps, which take these durations.
    fn run(&mut self, budget: u32, durations: &[u16], lent: &mut Lent) -> u32;
    /// Loads an image.
    fn load(&mut self, image: &[u8], lent: &mut Lent) -> u32;

    /// Makes one call.
    fn call(&mut self, call: &Call, lent: &mut Lent) -> u32 {
        match call {
            Call::Run { budget, durations } => self.run(*budget, durations, lent),
            Call::Load(image) => self.load(image, lent),
        }
    }
}
