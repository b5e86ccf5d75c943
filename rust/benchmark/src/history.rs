//! Ours on memory that is lent to each call, where its rollback history can be seen, beside `chip-rust`, which walks over the history alike and
//! tells how many entries it compared.
use crate::chip::Chip;
use crate::peer::Peer;
use crate::workload::{Op, Settings, Workload};
use vcm::calls::{self, Lent};
use vcm::State;

struct Lender {
    state: State,
    archive: Vec<u8>,
    pool: Vec<u8>,
    groups: Vec<u32>,
    table: Vec<u16>,
    owners: Vec<u32>,
    history: Vec<u16>,
}

impl Lender {
    fn new(settings: Settings) -> Lender {
        let Settings {
            lines,
            frames,
            pages,
        } = settings;
        let need = calls::sizes(lines, frames, pages);
        let mut this = Lender {
            state: calls::blank(),
            archive: vec![0; need.archive],
            pool: vec![0; need.pool],
            groups: vec![0; need.groups / 4],
            table: vec![0; need.table / 2],
            owners: vec![0; need.owners / 4],
            history: vec![0; need.history / 2],
        };
        let refusal = this.call(|state, lent| calls::reset(state, lent, lines, frames, pages));
        assert_eq!(refusal, 0, "good settings");
        this
    }

    fn call(&mut self, call: impl FnOnce(&mut State, &mut Lent) -> u32) -> u32 {
        let mut lent = Lent {
            archive: &mut self.archive,
            pool: &mut self.pool,
            groups: &mut self.groups,
            table: &mut self.table,
            owners: &mut self.owners,
            history: &mut self.history,
        };
        call(&mut self.state, &mut lent)
    }

    /// The call's refusal.
    fn step(&mut self, op: Op) -> u32 {
        self.call(|state, lent| match op {
            Op::Read { width, address } => {
                calls::read(state, lent.shown(), u32::from(width), address).refusal
            }
            Op::Write {
                width,
                address,
                value,
            }
            | Op::Refused {
                width,
                address,
                value,
            } => calls::write(state, lent, u32::from(width), address, value),
            Op::Mark => calls::mark(state, lent.shown()),
            Op::Rollback(k) => calls::rollback(state, lent, k),
            Op::Advance(k) => calls::advance(state, lent, k),
        })
    }

    /// The entries of the tags in use.
    fn history(&self) -> &[u16] {
        &self.history[..=self.state.registers.tag as usize]
    }
}

/// The rollbacks of a list, and how many entries of the history their walks compared, in all and at most.
#[derive(Default)]
pub struct Walks {
    pub rollbacks: usize,
    pub compared: usize,
    pub most: usize,
}

/// Plays a list on both. After every rollback the used entries of the history must be the same.
pub fn walks(list: &Workload) -> Result<Walks, String> {
    let mut ours = Lender::new(list.settings);
    let mut chip = <Chip as Peer>::new(list.settings);
    let mut walks = Walks::default();
    for (place, op) in list.ops.iter().enumerate() {
        let refusal = ours.step(*op);
        let due = match op {
            Op::Refused { .. } => 13,
            _ => 0,
        };
        if refusal != due {
            return Err(format!("call {place} gets {refusal} on ours"));
        }
        let Op::Rollback(k) = *op else {
            chip.step(*op);
            continue;
        };
        let compared = Chip::rollback(&mut chip, k).expect("accepted");
        walks.rollbacks += 1;
        walks.compared += compared;
        walks.most = walks.most.max(compared);
        if ours.history() != chip.history() {
            return Err(format!(
                "after the rollback at {place} the history differs: ours {:?}, {} {:?}",
                ours.history(),
                Chip::NAME,
                chip.history()
            ));
        }
    }
    Ok(walks)
}
