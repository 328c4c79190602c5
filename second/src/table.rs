//! The reader of table texts.

use crate::column::Fault;
use crate::cubes::{without_dropped, Cube, Variable};
use crate::line::{kind_of, Kind, Sizes};
use crate::network::Network;
use crate::refusal::{at, whole, Refusal};

const MOST_BYTES: usize = 65_536;
const MOST_ROWS: usize = 1_024;
const MOST_PROMISED: u32 = 32_768;

/// What has been read so far.
#[derive(Default)]
struct Reading {
    inputs: Option<usize>,
    outputs: Option<usize>,
    promised: Option<usize>,
    cube_lines: usize,
    rows: Vec<(usize, Cube)>,
}

/// Whether the reading goes on or has met its `.e`.
#[derive(PartialEq)]
enum Onward {
    More,
    Ended,
}

/// The network of a table text, or the refusal of its first bad line.
pub fn read(text: &[u8]) -> Result<Network, Refusal> {
    if text.len() > MOST_BYTES {
        return Err(whole(1));
    }
    let mut reading = Reading::default();
    for (before, line) in text.split(|byte| *byte == b'\n').enumerate() {
        let sizes = reading.sizes();
        let met = reading.take_line(line);
        let refused = |fault: Fault| at(fault.number(), before + 1, fault.column(line, sizes));
        if met.map_err(refused)? == Onward::Ended {
            return Ok(reading.network());
        }
    }
    Err(whole(5))
}

/// The outputs as a table again, a row for each cube of each output.
pub fn written(network: &Network) -> String {
    let mut text = format!(".i {}\n.o {}\n", network.inputs, network.outputs.len());
    for (place, output) in network.outputs.iter().enumerate() {
        for cube in output {
            let side = |variable: usize| {
                let literal = cube.literals().iter().find(|l| usize::from(l.variable().0) == variable);
                literal.map_or('-', |l| if l.is_negated() { '0' } else { '1' })
            };
            text.extend((0..network.inputs).map(side));
            text.push(' ');
            text.extend((0..network.outputs.len()).map(|other| if other == place { '1' } else { '0' }));
            text.push('\n');
        }
    }
    text + ".e\n"
}

impl Reading {
    fn sizes(&self) -> Sizes {
        self.inputs.zip(self.outputs)
    }

    /// One line in turn.
    fn take_line(&mut self, line: &[u8]) -> Result<Onward, Fault> {
        match kind_of(line, self.sizes()).ok_or(Fault::NoKind)? {
            Kind::Empty => Ok(Onward::More),
            Kind::Inputs(n) => {
                self.inputs = Some(self.side(self.inputs, n)?);
                Ok(Onward::More)
            }
            Kind::Outputs(n) => {
                self.outputs = Some(self.side(self.outputs, n)?);
                Ok(Onward::More)
            }
            Kind::Promise(n) => self.promise(n),
            Kind::End => self.end(),
            Kind::Cube { literals, marks } => self.cube_line(literals, marks),
        }
    }

    /// `.i N` and `.o N` come once, before any cube, N from 1 to 32.
    fn side(&self, earlier: Option<usize>, n: u32) -> Result<usize, Fault> {
        if earlier.is_some() || self.cube_lines > 0 {
            return Err(Fault::Misplaced);
        }
        if (1..=32).contains(&n) {
            Ok(n as usize)
        } else {
            Err(Fault::Range)
        }
    }

    fn promise(&mut self, n: u32) -> Result<Onward, Fault> {
        if self.promised.is_some() || self.cube_lines > 0 {
            return Err(Fault::Misplaced);
        }
        if n > MOST_PROMISED {
            return Err(Fault::Range);
        }
        self.promised = Some(n as usize);
        Ok(Onward::More)
    }

    fn end(&self) -> Result<Onward, Fault> {
        if self.sizes().is_none() {
            return Err(Fault::Misplaced);
        }
        match self.promised {
            Some(n) if n != self.cube_lines => Err(Fault::Promise),
            _ => Ok(Onward::Ended),
        }
    }

    /// A row for each output `1`.
    fn cube_line(&mut self, literals: &[u8], marks: &[u8]) -> Result<Onward, Fault> {
        self.cube_lines += 1;
        let places = literals.iter().enumerate();
        let cube = Cube::of(places.filter_map(|(place, c)| match *c {
            b'1' => Some(Variable(place as u8).plain()),
            b'0' => Some(Variable(place as u8).negated()),
            _ => None,
        }));
        for (output, mark) in marks.iter().enumerate() {
            if *mark == b'1' {
                self.rows.push((output, cube.clone()));
            }
            if self.rows.len() > MOST_ROWS {
                return Err(Fault::Rows(literals.len() + output));
            }
        }
        Ok(Onward::More)
    }

    /// One node for each output, of its rows less those dropped.
    fn network(self) -> Network {
        let node = |output: usize| {
            let own = self.rows.iter().filter(|row| row.0 == output);
            without_dropped(own.map(|row| row.1.clone()))
        };
        Network {
            inputs: self.inputs.unwrap_or(0),
            outputs: (0..self.outputs.unwrap_or(0)).map(node).collect(),
            divisors: Vec::new(),
        }
    }
}
