//! A sheet in its parts, so that one can be damaged and the others still fit.

use super::Dice;

/// Byte 0, the contents lines (kind, offset, length) and the bodies. The lines may say anything.
pub struct Parts {
    pub first: u8,
    pub lines: Vec<(u8, u16, u16)>,
    pub bodies: Vec<Vec<u8>>,
}

impl Parts {
    /// Of a sheet that is whole, in five bodies or in six.
    pub fn new(sheet: &[u8]) -> Self {
        let number = |at: usize| u16::from_le_bytes([sheet[at], sheet[at + 1]]);
        let line = |i: u8| 1 + 5 * usize::from(i);
        let lines: Vec<_> = (0..sheet[0]).map(line).map(|at| (sheet[at], number(at + 1), number(at + 3))).collect();
        let body = |&(_, offset, length): &(u8, u16, u16)| sheet[usize::from(offset)..][..usize::from(length)].to_vec();
        Parts { first: sheet[0], bodies: lines.iter().map(body).collect(), lines }
    }

    /// Lets the contents say again where the bodies are.
    pub fn fit(&mut self) {
        let mut offset = 1 + 5 * self.lines.len();
        for (line, body) in self.lines.iter_mut().zip(&self.bodies) {
            (line.1, line.2) = (offset as u16, body.len() as u16);
            offset += body.len();
        }
    }

    pub fn sheet(&self) -> Vec<u8> {
        let line = |&(kind, offset, length): &(u8, u16, u16)| {
            let ([o0, o1], [l0, l1]) = (offset.to_le_bytes(), length.to_le_bytes());
            [kind, o0, o1, l0, l1]
        };
        let contents = self.lines.iter().flat_map(line);
        std::iter::once(self.first).chain(contents).chain(self.bodies.concat()).collect()
    }

    /// Steps, people, roles and actions; 1 for one that is no longer there. In five bodies the steps are the actions.
    pub fn counts(&self) -> [u8; 4] {
        let count = |i: usize| self.bodies[0].get(i).copied().unwrap_or(1);
        [count(0), count(1), count(2), count(if self.bodies.len() == 6 { 3 } else { 0 })]
    }

    /// The arrows as triples, to be changed.
    pub fn change_arrows(&mut self, change: impl FnOnce(&mut Vec<[u8; 3]>)) {
        let mut arrows = self.bodies[4].as_chunks().0.to_vec();
        change(&mut arrows);
        self.bodies[4] = arrows.concat();
    }

    /// Byte 0, which may name the other form, a kind, an offset or a length that is wrong, two lines changed over, or offsets that
    /// come round at 65,536.
    pub fn spoil_contents(&mut self, dice: &mut Dice) {
        let lines = self.lines.len();
        let i = dice.below(lines);
        match dice.below(6) {
            0 => self.first = dice.pick(&[0, 1, 4, 5, 5, 6, 6, 7, 255]),
            1 => self.lines[i].0 = dice.pick(&[0, 1, 2, 3, 4, 5, 6, 7, 255]),
            2 => self.lines[i].1 = nudge(dice, self.lines[i].1),
            3 => self.lines[i].2 = nudge(dice, self.lines[i].2),
            4 => self.lines.swap(i, dice.below(lines)),
            _ => self.come_round(dice),
        }
    }

    /// Makes a body much longer and the next one shorter by as much, counted modulo 65,536.
    fn come_round(&mut self, dice: &mut Dice) {
        let i = dice.below(self.lines.len() - 1);
        let more = dice.pick(&[65_535 - self.lines[i].2, 65_533, 65_510, 40_000, 32_768]);
        self.lines[i].2 = self.lines[i].2.wrapping_add(more);
        self.lines[i + 1].1 = self.lines[i + 1].1.wrapping_add(more);
        self.lines[i + 1].2 = self.lines[i + 1].2.wrapping_sub(more);
    }
}

fn nudge(dice: &mut Dice, number: u16) -> u16 {
    let by = dice.pick(&[1, 2, 3, 256, 65_535, 65_533, 65_280]);
    number.wrapping_add(by)
}
