//! What commands answer as JSON, one object a line. docs/JSON.md tells every key.

mod value;

use std::ffi::OsStr;
use std::os::unix::ffi::OsStrExt;

use usm::{Form, Origin, Refusal};

use crate::found::{Found, Judged};
use value::Value;

/// An object that is built key after key.
pub struct Object(Vec<(String, Value)>);

impl From<Object> for Value {
    fn from(object: Object) -> Value {
        Value::Object(object.0)
    }
}

impl Object {
    pub fn new() -> Object {
        Object(Vec::new())
    }

    /// About this file.
    pub fn of(name: &OsStr) -> Object {
        Object::new().named("file", name)
    }

    pub fn with(mut self, key: &str, value: impl Into<Value>) -> Object {
        self.0.push((String::from(key), value.into()));
        self
    }

    /// A file's name. One that is no UTF-8 has replacement characters in it, and all its bytes beside it.
    pub fn named(self, key: &str, name: &OsStr) -> Object {
        let object = self.with(key, &*name.to_string_lossy());
        match name.to_str() {
            Some(_) => object,
            None => {
                let bytes: String = name.as_bytes().iter().map(|byte| format!("{byte:02x}")).collect();
                object.with(&format!("{key}_hex"), bytes)
            }
        }
    }

    /// Form and account, where they are known.
    pub fn origin(self, origin: Option<Origin>) -> Object {
        let form = origin.map(|origin| match origin.form {
            Form::Old => "old",
            Form::New => "new",
        });
        let account = origin.filter(|origin| origin.form == Form::New).map(|origin| origin.account);
        self.with("form", form).with("account", account)
    }

    /// What was found of a sheet.
    pub fn verdict(self, judged: &Judged) -> Object {
        let accepted = match &judged.found {
            Found::Accepted(accepted) => Some(accepted),
            _ => None,
        };
        let (verdict, refusal, error) = match &judged.found {
            Found::Accepted(_) => ("accepted", None, None),
            Found::Refused(refusal, sentence) => ("refused", Some(refused(refusal, sentence)), None),
            Found::Unread(message) => ("not read", None, Some(message.as_str())),
        };
        self.with("verdict", verdict)
            .with("groups", accepted.map(|accepted| accepted.groups))
            .with("total", accepted.map(|accepted| accepted.total))
            .with("margins", judged.margins())
            .with("work", judged.found.work())
            .with("refusal", refusal)
            .with("error", error)
    }

    /// The object and a newline.
    pub fn line(self) -> String {
        format!("{}\n", Value::from(self))
    }
}

/// A refusal with its sentence.
pub fn refused(refusal: &Refusal, sentence: &str) -> Object {
    let Refusal { number, table, place } = *refusal;
    Object::new().with("number", number).with("table", table).with("place", place).with("sentence", sentence)
}
