//! Files with the image of a table.

use crate::Fault;
use std::fs;

/// The form of a table.
#[derive(Clone, Copy, Debug, PartialEq, Eq)]
pub(crate) enum Form {
    /// A row for each state.
    Dense,
    /// Ranges of bytes for each state.
    Sparse,
}

impl Form {
    /// The form of this name.
    fn named(name: &str) -> Result<Form, Fault> {
        match name {
            "dense" => Ok(Form::Dense),
            "sparse" => Ok(Form::Sparse),
            _ => Err(Fault::Usage),
        }
    }
}

/// The image of a table, which nothing has tested yet.
#[derive(Drop)]
pub(crate) struct TableFile {
    /// The form that the words name.
    pub(crate) form: Form,
    /// The bytes of the file.
    pub(crate) bytes: Vec<u8>,
}

impl TableFile {
    /// Reads the file at `path`. `form` is the name of its form.
    pub(crate) fn read(rt: &HostRuntime, form: &str, path: &str) -> Result<TableFile, Fault> {
        Ok(TableFile {
            form: Form::named(form)?,
            bytes: fs::read(rt, path)?,
        })
    }
}
