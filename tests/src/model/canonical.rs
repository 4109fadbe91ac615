//! Canonical text, written from the tree: what the source spelled otherwise is not in there.

use super::value::{Key, Kind, Pair, Span, Value};

/// "Every integer and number in shortest decimal form [...] Float texts, strings and class names
/// are copied", from the source that the tree was parsed from.
pub fn text(root: &Value, source: &[u8]) -> Vec<u8> {
    let mut writer = Writer {
        source,
        out: Vec::new(),
    };
    writer.value(root);
    writer.out
}

struct Writer<'a> {
    source: &'a [u8],
    out: Vec<u8>,
}

impl Writer<'_> {
    fn value(&mut self, value: &Value) {
        match &value.kind {
            Kind::Null => self.put("N;"),
            Kind::Bool(value) => self.put(format!("b:{};", u8::from(*value))),
            Kind::Integer(value) => self.put(format!("i:{value};")),
            Kind::Float(span) => {
                self.put("d:");
                self.copy(*span);
                self.put(";");
            }
            Kind::Text(span) => self.text("s", *span, ";"),
            Kind::Array(pairs) => {
                self.put("a");
                self.pairs(pairs);
            }
            Kind::Object { class, pairs } => {
                self.text("O", *class, "");
                self.pairs(pairs);
            }
            Kind::Copy(ordinal) => self.put(format!("r:{ordinal};")),
            Kind::Alias(ordinal) => self.put(format!("R:{ordinal};")),
        }
    }

    fn pairs(&mut self, pairs: &[Pair]) {
        self.put(format!(":{}:{{", pairs.len()));
        for pair in pairs {
            match pair.key {
                Key::Integer(value) => self.put(format!("i:{value};")),
                Key::Text(span) => self.text("s", span, ";"),
            }
            self.value(&pair.value);
        }
        self.put("}");
    }

    fn text(&mut self, tag: &str, span: Span, end: &str) {
        self.put(format!("{tag}:{}:\"", span.length));
        self.copy(span);
        self.put("\"");
        self.put(end);
    }

    fn copy(&mut self, span: Span) {
        self.out.extend(span.of(self.source));
    }

    fn put(&mut self, text: impl AsRef<str>) {
        self.out.extend(text.as_ref().bytes());
    }
}
