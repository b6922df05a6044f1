//! Tasks to be written as records: any numbers, also such as the reader refuses. Shares nothing with the reader.

/// A variable and a value.
pub type Pair = (usize, usize);

#[derive(Clone, Debug, Default)]
pub struct Step {
    pub handling: usize,
    pub distance: usize,
    pub conditions: Vec<Pair>,
    pub effects: Vec<Pair>,
}

#[derive(Clone, Debug, Default)]
pub struct Draft {
    pub leaves: usize,
    /// Size, factor and initial value.
    pub variables: Vec<(usize, usize, usize)>,
    pub goal: Vec<Pair>,
    pub steps: Vec<Step>,
}

#[derive(Clone, Copy, PartialEq, Eq, Debug)]
pub enum Kind {
    Head,
    Size,
    Factor,
    Initial,
    Count,
    EffectCount,
    Variable,
    Value,
    Price,
}

/// A field before it is packed, so that a fault can be put into any one.
#[derive(Clone, Copy, Debug)]
pub struct Field {
    pub kind: Kind,
    pub width: usize,
    pub value: usize,
}

fn pairs(out: &mut Vec<Field>, count: Kind, list: &[Pair]) {
    out.push(Field { kind: count, width: 6, value: list.len() });
    for &(variable, value) in list {
        out.push(Field { kind: Kind::Variable, width: 5, value: variable });
        out.push(Field { kind: Kind::Value, width: 4, value });
    }
}

impl Draft {
    pub fn fields(&self) -> Vec<Field> {
        let mut out = Vec::new();
        for (width, value) in [(5, self.variables.len() - 1), (3, self.leaves - 1), (8, self.steps.len())] {
            out.push(Field { kind: Kind::Head, width, value });
        }
        for &(size, factor, initial) in &self.variables {
            out.push(Field { kind: Kind::Size, width: 4, value: size - 1 });
            out.push(Field { kind: Kind::Factor, width: 4, value: factor });
            out.push(Field { kind: Kind::Initial, width: 4, value: initial });
        }
        pairs(&mut out, Kind::Count, &self.goal);
        for s in &self.steps {
            out.push(Field { kind: Kind::Price, width: 12, value: s.handling });
            out.push(Field { kind: Kind::Price, width: 10, value: s.distance });
            pairs(&mut out, Kind::Count, &s.conditions);
            pairs(&mut out, Kind::EffectCount, &s.effects);
        }
        out
    }

    pub fn record(&self) -> Vec<u8> {
        pack(&self.fields())
    }

    /// The number of states of all leaves together.
    pub fn leaf_states(&self) -> usize {
        (1..=self.leaves).map(|l| self.variables.iter().filter(|v| v.1 == l).map(|v| v.0).product::<usize>()).sum()
    }

    /// The number of whole states, none where it does not fit.
    pub fn whole_states(&self) -> Option<usize> {
        self.variables.iter().try_fold(1usize, |n, v| n.checked_mul(v.0))
    }
}

/// The most significant bit first, and zero bits to the end of the last byte.
pub fn pack(fields: &[Field]) -> Vec<u8> {
    let mut out = Vec::new();
    let (mut held, mut count) = (0u64, 0);
    for f in fields {
        held = held << f.width | (f.value & ((1 << f.width) - 1)) as u64;
        count += f.width;
        while count >= 8 {
            count -= 8;
            out.push((held >> count) as u8);
        }
    }
    if count > 0 {
        out.push((held << (8 - count)) as u8);
    }
    out
}
