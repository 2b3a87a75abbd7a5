//! Steps 2 to 5, by the original.

use std::panic::{catch_unwind, AssertUnwindSafe};

use super::answer::{Fault, Refused, Step};
use super::ast::{BitPos, Cond, CondBounds, Field, Header, Length, LengthField};
use super::inputs::{Entry, FieldInput, Inputs, LengthInput, Stated};
use crate::utils::Spanned;

/// A sheet that the original accepts.
#[derive(Debug)]
pub struct Definition {
    pub header: Header,
    pub length: Length,
    pub cond: Cond,
    /// The names of the conditions, in the order of the sheet: the original's map has none.
    pub listed: Vec<String>,
}

/// Steps 2 to 5 in their order. A panic is an answer too.
pub fn ask(inputs: Inputs) -> Result<Definition, Fault> {
    let listed = inputs.conds.iter().map(|(name, _)| name.clone()).collect();
    let fields = caught(Step::Fields, || fields(inputs.fields))?;
    let header = caught(Step::Header, || header(fields, inputs.blocks))?;
    let length = caught(Step::Length, || length(inputs.lengths, &header))?;
    let cond = caught(Step::Cond, || cond(inputs.conds, &header))?;
    Ok(Definition { header, length, cond, listed })
}

/// Step 2, field by field.
pub fn fields(inputs: Vec<FieldInput>) -> Result<Vec<(Spanned<String>, Field)>, Refused> {
    let one = |(place, input): (usize, FieldInput)| {
        let field = Field::new(input.bit, input.repr, input.arg, input.default, input.gen);
        let field = field.map_err(|error| Refused::new(&error, Some(place)))?;
        Ok((Spanned { item: input.name, span: (place, place) }, field))
    };
    inputs.into_iter().enumerate().map(one).collect()
}

/// Step 3. The places are handed over as spans, and come back with the error; of header 5 the original tells only that
/// it is the header.
pub fn header(fields: Vec<(Spanned<String>, Field)>, blocks: usize) -> Result<Header, Refused> {
    Header::new(fields, (blocks, blocks)).map_err(|(error, (place, _))| {
        let refused = Refused::new(&error, Some(place));
        Refused { place: refused.place.filter(|_| refused.number != 5), ..refused }
    })
}

/// Step 4: the trees in the order of their blocks, then the slots.
pub fn length(inputs: Vec<LengthInput>, header: &Header) -> Result<Length, Refused> {
    let first = header.field_iter().count();
    let mut slots = vec![LengthField::None; 3];
    for (place, input) in (first..).zip(inputs) {
        slots[input.slot] = slot(input.stated, place)?;
    }
    Length::from_packet_length(slots, header).map_err(|error| Refused::new(&error, None))
}

fn slot(stated: Stated, place: usize) -> Result<LengthField, Refused> {
    let expr = match stated {
        Stated::Undefined => return Ok(LengthField::Undefined),
        Stated::Usable(expr) => expr,
        Stated::Tree(tree) => tree.try_take_usable_alg_expr().map_err(|error| Refused::new(&error, Some(place)))?,
    };
    Ok(LengthField::Expr { expr })
}

/// Step 5.
pub fn cond(entries: Vec<Entry>, header: &Header) -> Result<Cond, Refused> {
    Cond::from_cond_list(entries, header).map_err(|error| Refused::new(&error, None))
}

/// Runs a step, and catches its panic.
fn caught<T>(step: Step, run: impl FnOnce() -> Result<T, Refused>) -> Result<T, Fault> {
    match catch_unwind(AssertUnwindSafe(run)) {
        Ok(answer) => answer.map_err(Fault::Refused),
        Err(_) => Err(Fault::Panicked(step)),
    }
}

impl Definition {
    /// Name, field and start of every field, in order.
    pub fn fields(&self) -> impl Iterator<Item = (&str, &Field, BitPos)> {
        self.header.field_iter()
    }

    /// Name and clipped ranges of every condition, in the order of the sheet.
    pub fn conds(&self) -> impl Iterator<Item = (&str, &[CondBounds])> {
        self.listed.iter().map(|name| {
            let (_, start) = self.header.field(name).expect("an accepted condition has its field");
            (&name[..], &self.cond.cond_map()[&start].1[..])
        })
    }
}
