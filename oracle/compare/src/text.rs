//! The training text: what it holds, counted and read; and tables written as one.

use oracle::training_text::Sizes;
use oracle::training_text::writer::Given;

use crate::calls::{
    Names, Text, Totals, Written, bodkinbloom_read_text, bodkinbloom_text_sizes, bodkinbloom_write_text,
};
use crate::{Refusal, pointer, pointer_mut};

/// The twelve tables that the reader is lent.
pub struct Lent<'a> {
    pub line_starts: &'a mut [u32],
    pub word_starts: &'a mut [u32],
    pub ids: &'a mut [u32],
    pub values: &'a mut [f64],
    pub references: &'a mut [u32],
    pub instance_weights: &'a mut [f64],
    pub label_name_starts: &'a mut [u32],
    pub label_names: &'a mut [u8],
    pub attribute_name_starts: &'a mut [u32],
    pub attribute_names: &'a mut [u8],
    pub scale_starts: &'a mut [u32],
    pub scales: &'a mut [u8],
}

/// The sizes that an answer stands for; after a refusal all of them are 0, and else its place is.
fn sizes(answer: Text) -> Result<Sizes, Refusal> {
    let sizes = Sizes {
        labels: answer.labels,
        attribute_names: answer.attribute_names,
        instances: answer.instances,
        words: answer.words_in_all,
        attributes: answer.attributes_in_all,
        label_bytes: answer.label_bytes,
        attribute_bytes: answer.attribute_bytes,
        scale_bytes: answer.scale_bytes,
    };
    if answer.number == 0 {
        assert_eq!(answer.place, 0, "{answer:?}");
        Ok(sizes)
    } else {
        assert_eq!(sizes, Sizes::default(), "{answer:?}");
        Err((answer.number, answer.place))
    }
}

pub fn text_sizes(text: &[u8]) -> Result<Sizes, Refusal> {
    sizes(unsafe { bodkinbloom_text_sizes(pointer(text), text.len()) })
}

pub fn read_text(text: &[u8], lent: Lent<'_>) -> Result<Sizes, Refusal> {
    let Lent { line_starts, word_starts, ids, values, references, instance_weights, .. } = lent;
    let Lent { label_name_starts, label_names, attribute_name_starts, attribute_names, scale_starts, scales, .. } =
        lent;
    sizes(unsafe {
        bodkinbloom_read_text(
            pointer(text),
            text.len(),
            pointer_mut(line_starts),
            line_starts.len(),
            pointer_mut(word_starts),
            word_starts.len(),
            pointer_mut(ids),
            ids.len(),
            pointer_mut(values),
            values.len(),
            pointer_mut(references),
            references.len(),
            pointer_mut(instance_weights),
            instance_weights.len(),
            pointer_mut(label_name_starts),
            label_name_starts.len(),
            pointer_mut(label_names),
            label_names.len(),
            pointer_mut(attribute_name_starts),
            attribute_name_starts.len(),
            pointer_mut(attribute_names),
            attribute_names.len(),
            pointer_mut(scale_starts),
            scale_starts.len(),
            pointer_mut(scales),
            scales.len(),
        )
    })
}

/// How many bytes were written to the front of `text`, whose length is the call's and not what `given` says of it.
pub fn write_text(given: &Given, text: &mut [u8]) -> Result<u64, Refusal> {
    let tables = &given.tables;
    let totals = Totals { instances: given.instances, words_in_all: given.words, attributes_in_all: given.attributes };
    let names = Names {
        attribute_names: given.attribute_names,
        label_bytes: given.label_bytes,
        attribute_bytes: given.attribute_bytes,
        scale_bytes: given.scale_bytes,
    };
    let Written { number, place, length } = unsafe {
        bodkinbloom_write_text(
            given.labels,
            totals,
            names,
            pointer(&tables.line_starts),
            tables.line_starts.len(),
            pointer(&tables.word_starts),
            tables.word_starts.len(),
            pointer(&tables.ids),
            tables.ids.len(),
            pointer(&tables.references),
            tables.references.len(),
            pointer(&tables.label_name_starts),
            tables.label_name_starts.len(),
            pointer(&tables.label_names),
            tables.label_names.len(),
            pointer(&tables.attribute_name_starts),
            tables.attribute_name_starts.len(),
            pointer(&tables.attribute_names),
            tables.attribute_names.len(),
            pointer(&tables.scale_starts),
            tables.scale_starts.len(),
            pointer(&tables.scales),
            tables.scales.len(),
            pointer_mut(text),
            text.len(),
        )
    };
    if number == 0 {
        assert_eq!(place, 0);
        Ok(length)
    } else {
        assert_eq!(length, 0, "number {number}");
        Err((number, place))
    }
}
