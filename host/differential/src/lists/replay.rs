//! Making the calls of a list, each on the buffers that the ones before it left.

use mom::Refusal;

use super::{
    draw::{Call, Fault},
    table::end_of,
    Answer, Arguments, Input, Step, Value,
};
use crate::{
    cells::{n_hash, Cell},
    protected,
    random::Random,
    widths::Width,
};

/// The buffers and the number held, as a caller keeps them.
#[derive(Clone)]
struct Buffers<V, Z> {
    zuniqs: Vec<Z>,
    values: Vec<V>,
    held: usize,
}

/// One call with all that it is lent, faults in it included.
struct Lent<V, Z> {
    depth: u8,
    m: u8,
    t: f64,
    protected: Vec<Z>,
    held: usize,
    /// How much of each buffer is lent.
    places: [usize; 2],
    buffers: Buffers<V, Z>,
    call: Call<V, Z>,
}

impl<V: Value, Z: Width> Lent<V, Z> {
    fn new(input: &Input<V, Z>, kept: &Buffers<V, Z>, call: &Call<V, Z>) -> Self {
        let full = kept.held + call.hashes.len();
        let exactly = call.exactly_full && full <= input.places;
        let mut lent = Lent {
            depth: input.depth,
            m: input.depth_threshold,
            t: input.chi2_threshold.0,
            protected: input.protected.clone(),
            held: kept.held,
            places: [if exactly { full } else { input.places }; 2],
            buffers: kept.clone(),
            call: call.clone(),
        };
        for &fault in &call.faults {
            lent.change(input, kept, fault);
        }
        lent
    }

    fn change(&mut self, input: &Input<V, Z>, kept: &Buffers<V, Z>, fault: Fault<V>) {
        let (buffers, call) = (&mut self.buffers, &mut self.call);
        let (held, cells) = (kept.held, call.hashes.len());
        match fault {
            Fault::Depth(other) => self.depth = other,
            Fault::DepthThreshold(other) => self.m = other,
            Fault::Chi2Threshold => self.t = f64::NAN,
            Fault::Protected(seed) => {
                protected::change(&mut Random::new(seed), &mut self.protected);
            }
            Fault::ZuniqsShorter => self.places[0] = self.places[0].saturating_sub(1),
            Fault::ValuesShorter => self.places[1] = self.places[1].saturating_sub(1),
            Fault::HashesShorter => call.hashes.truncate(cells.saturating_sub(1)),
            Fault::BatchShorter => call.batch.truncate(call.batch.len().saturating_sub(1)),
            Fault::HeldPastTheBuffers => self.held = input.places + 1,
            Fault::HeldOneMore => self.held = held + 1,
            Fault::OnePlaceShort => {
                self.places = [(held + cells).saturating_sub(1).min(input.places); 2];
            }
            Fault::EntryNone(place) if held > 0 => buffers.zuniqs[place % held] = Z::of(2),
            Fault::EntryTooDeep(place) if held > 0 && input.depth < Z::DEPTH_MAX => {
                let cell = Cell::of_zuniq(kept.zuniqs[place % held]).unwrap();
                buffers.zuniqs[place % held] = cell.descendant(input.depth + 1, 0).zuniq();
            }
            Fault::EntryAgain(place) if held > 1 => {
                let place = place % (held - 1);
                buffers.zuniqs[place + 1] = kept.zuniqs[place];
            }
            Fault::HeldValue(place, value) if held > 0 => buffers.values[place % held] = value,
            Fault::HashPast(place, by) if cells > 0 => {
                call.hashes[place % cells] = Z::of(n_hash(input.depth) + by);
            }
            Fault::HashNotAbove(place) if cells > 0 => {
                let end = end_of(&kept.zuniqs[..held], input.depth);
                call.hashes[place % cells] = match place % cells {
                    0 => Z::of(end.saturating_sub(1)),
                    place => call.hashes[place - 1],
                };
            }
            Fault::BatchValue(place, value) if !call.batch.is_empty() => {
                let len = call.batch.len();
                call.batch[place % len] = value;
            }
            _ => {}
        }
    }

    fn arguments(&mut self) -> Arguments<'_, V, Z> {
        let [of_zuniqs, of_values] = self.places;
        Arguments {
            depth: self.depth,
            depth_threshold: self.m,
            chi2_threshold: self.t,
            protected: &self.protected,
            held: self.held,
            zuniqs: &mut self.buffers.zuniqs[..of_zuniqs],
            values: &mut self.buffers.values[..of_values],
            hashes: &self.call.hashes,
            batch: &self.call.batch,
        }
    }
}

/// Makes the calls of a list through `add`, with both buffers after each. `add` is told what the
/// table refuses. A faulty call that the table doesn't refuse is left out.
pub fn replay<V: Value, Z: Width>(
    input: &Input<V, Z>,
    mut add: impl FnMut(Arguments<V, Z>, Option<Refusal>) -> Answer<V>,
) -> Vec<Step<V, Z>> {
    let mut buffers = Buffers {
        zuniqs: vec![Z::of(input.content); input.places],
        values: vec![V::of_content(input.content); input.places],
        held: 0,
    };
    let mut steps = Vec::new();
    for call in &input.calls {
        let mut lent = Lent::new(input, &buffers, call);
        let arguments = lent.arguments();
        let refusal = arguments.refusal();
        if !call.faults.is_empty() && refusal.is_none() {
            continue;
        }
        let answer = add(arguments, refusal);
        let Buffers { zuniqs, values, .. } = lent.buffers;
        steps.push((answer, zuniqs.clone(), values.clone()));
        // After a refusal the buffers as they were without the call's faults: what it touched, its
        // step shows.
        if let Ok((held, _)) = answer {
            buffers = Buffers {
                zuniqs,
                values,
                held,
            };
        }
    }
    steps
}
