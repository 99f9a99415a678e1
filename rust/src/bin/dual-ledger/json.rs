//! JSON as the picture has it: null, whole numbers, texts without escapes, lists, and objects with their keys in order.

#[derive(Debug, PartialEq)]
pub enum Value {
    Null,
    Number(i64),
    Text(String),
    List(Vec<Value>),
    Object(Vec<(String, Value)>),
}

impl Value {
    /// The value of all of a text, if it is of this form.
    pub fn read(text: &str) -> Option<Value> {
        let mut rest = text;
        let value = value(&mut rest)?;
        rest.is_empty().then_some(value)
    }

    /// What stands under a key.
    pub fn at(&self, key: &str) -> Option<&Value> {
        match self {
            Value::Object(pairs) => pairs.iter().find(|(name, _)| name == key).map(|(_, value)| value),
            _ => None,
        }
    }

    pub fn number(&self) -> Option<i64> {
        match self {
            Value::Number(number) => Some(*number),
            _ => None,
        }
    }

    pub fn text(&self) -> Option<&str> {
        match self {
            Value::Text(text) => Some(text),
            _ => None,
        }
    }

    pub fn list(&self) -> Option<&[Value]> {
        match self {
            Value::List(list) => Some(list),
            _ => None,
        }
    }
}

fn taken(rest: &mut &str, token: &str) -> Option<()> {
    *rest = rest.strip_prefix(token)?;
    Some(())
}

fn quoted(rest: &mut &str) -> Option<String> {
    taken(rest, "\"")?;
    let (text, after) = rest.split_once('"')?;
    *rest = after;
    Some(text.to_string())
}

/// Items with commas between, up to a closing bracket.
fn items<T>(rest: &mut &str, close: &str, mut item: impl FnMut(&mut &str) -> Option<T>) -> Option<Vec<T>> {
    let mut all = vec![];
    if taken(rest, close).is_some() {
        return Some(all);
    }
    loop {
        all.push(item(rest)?);
        if taken(rest, close).is_some() {
            return Some(all);
        }
        taken(rest, ",")?;
    }
}

fn value(rest: &mut &str) -> Option<Value> {
    match rest.bytes().next()? {
        b'n' => taken(rest, "null").map(|()| Value::Null),
        b'"' => quoted(rest).map(Value::Text),
        b'[' => {
            taken(rest, "[")?;
            items(rest, "]", value).map(Value::List)
        }
        b'{' => {
            taken(rest, "{")?;
            let pair = |rest: &mut &str| {
                let key = quoted(rest)?;
                taken(rest, ":")?;
                Some((key, value(rest)?))
            };
            items(rest, "}", pair).map(Value::Object)
        }
        _ => {
            let end = rest.find(|c: char| c != '-' && !c.is_ascii_digit()).unwrap_or(rest.len());
            let number = rest[..end].parse().ok()?;
            *rest = &rest[end..];
            Some(Value::Number(number))
        }
    }
}
