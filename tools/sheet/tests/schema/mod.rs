//! JSON read back, and held to a schema: the part of JSON Schema that docs/schema/sheet.json uses. Another keyword is a fault of
//! the schema.

use sheet::json::Json;

/// What a text of JSON says.
pub fn parse(text: &str) -> Result<Json, String> {
    let mut reader = Reader { rest: text };
    let value = reader.value()?;
    match reader.rest.trim_start() {
        "" => Ok(value),
        rest => Err(format!("after the end: {rest}")),
    }
}

struct Reader<'a> {
    rest: &'a str,
}

impl Reader<'_> {
    /// Takes a mark, if it comes next.
    fn takes(&mut self, mark: &str) -> bool {
        self.rest = self.rest.trim_start();
        let rest = self.rest.strip_prefix(mark);
        self.rest = rest.unwrap_or(self.rest);
        rest.is_some()
    }

    fn wants(&mut self, mark: &str) -> Result<(), String> {
        match self.takes(mark) {
            true => Ok(()),
            false => Err(format!("no `{mark}`: {}", self.rest)),
        }
    }

    fn value(&mut self) -> Result<Json, String> {
        let words = [("null", Json::Null), ("true", Json::Bool(true)), ("false", Json::Bool(false))];
        if let Some((_, value)) = words.into_iter().find(|(word, _)| self.takes(word)) {
            return Ok(value);
        }
        match self.rest.chars().next() {
            Some('"') => Ok(Json::Text(self.text()?)),
            Some('[') => self.members("[", "]", Reader::value).map(Json::List),
            Some('{') => self.members("{", "}", Reader::field).map(Json::Object),
            _ => self.number(),
        }
    }

    fn members<T>(
        &mut self,
        open: &str,
        close: &str,
        one: fn(&mut Self) -> Result<T, String>,
    ) -> Result<Vec<T>, String> {
        self.wants(open)?;
        let mut members = Vec::new();
        if self.takes(close) {
            return Ok(members);
        }
        loop {
            members.push(one(self)?);
            if self.takes(close) {
                return Ok(members);
            }
            self.wants(",")?;
        }
    }

    fn field(&mut self) -> Result<(String, Json), String> {
        self.rest = self.rest.trim_start();
        let name = self.text()?;
        self.wants(":")?;
        Ok((name, self.value()?))
    }

    /// A whole number from 0 on: others aren't written.
    fn number(&mut self) -> Result<Json, String> {
        let digits = self.rest.find(|letter: char| !letter.is_ascii_digit()).unwrap_or(self.rest.len());
        let (number, rest) = self.rest.split_at(digits);
        self.rest = rest;
        number.parse().map(Json::Number).map_err(|_| format!("no value: {number}{rest}"))
    }

    fn text(&mut self) -> Result<String, String> {
        self.wants("\"")?;
        let mut text = String::new();
        loop {
            let mut letters = self.rest.chars();
            match letters.next() {
                Some('"') => {
                    self.rest = letters.as_str();
                    return Ok(text);
                }
                Some('\\') => {
                    self.rest = letters.as_str();
                    text.push(self.escaped()?);
                }
                Some(letter) if letter >= ' ' => {
                    self.rest = letters.as_str();
                    text.push(letter);
                }
                _ => return Err(format!("a text that doesn't end: {}", self.rest)),
            }
        }
    }

    fn escaped(&mut self) -> Result<char, String> {
        for (mark, letter) in [("\"", '"'), ("\\", '\\'), ("n", '\n')] {
            if let Some(rest) = self.rest.strip_prefix(mark) {
                self.rest = rest;
                return Ok(letter);
            }
        }
        let code = self.rest.strip_prefix('u').and_then(|rest| rest.get(..4));
        let code = code.and_then(|code| u32::from_str_radix(code, 16).ok()).and_then(char::from_u32);
        self.rest = self.rest.get(5..).unwrap_or("");
        code.ok_or(format!("no letter: {}", self.rest))
    }
}

/// A field of an object.
pub fn field<'a>(value: &'a Json, name: &str) -> Option<&'a Json> {
    match value {
        Json::Object(fields) => fields.iter().find(|(other, _)| other == name).map(|(_, value)| value),
        _ => None,
    }
}

/// The members of a list.
pub fn members(value: &Json) -> &[Json] {
    match value {
        Json::List(members) => members,
        _ => &[],
    }
}

pub struct Schema(pub Json);

impl Schema {
    /// What is wrong with a value by the definition of a name, if anything is.
    pub fn wrong(&self, name: &str, value: &Json) -> Option<String> {
        let schema = field(&self.0, "$defs").and_then(|defs| field(defs, name)).expect("a definition");
        self.check(schema, value).err()
    }

    /// What is wrong with a value by the whole schema.
    pub fn wrong_in_all(&self, value: &Json) -> Option<String> {
        self.check(&self.0, value).err()
    }

    fn check(&self, schema: &Json, value: &Json) -> Result<(), String> {
        let Json::Object(keywords) = schema else { panic!("a schema is an object: {schema}") };
        if let Some(name) = field(schema, "$ref") {
            self.check(self.named(name), value)?;
        }
        let broken = keywords.iter().find(|(keyword, rule)| !self.holds(keyword, rule, value));
        if let Some((keyword, rule)) = broken {
            return Err(format!("{value} breaks {keyword}: {rule}"));
        }
        if let Json::Object(fields) = value {
            fields.iter().try_for_each(|(name, value)| self.check_field(schema, name, value))?;
        }
        match field(schema, "items") {
            Some(items) => members(value).iter().try_for_each(|member| self.check(items, member)),
            None => Ok(()),
        }
    }

    fn check_field(&self, schema: &Json, name: &str, value: &Json) -> Result<(), String> {
        let known = field(schema, "properties").and_then(|known| field(known, name));
        match (known, field(schema, "additionalProperties")) {
            (Some(schema), _) | (None, Some(schema @ Json::Object(_))) => self.check(schema, value),
            (None, Some(Json::Bool(false))) => Err(format!("no field is called {name}")),
            _ => Ok(()),
        }
    }

    /// Does a value keep one keyword? Those that speak of parts are looked at with the parts.
    fn holds(&self, keyword: &str, rule: &Json, value: &Json) -> bool {
        match keyword {
            "oneOf" => members(rule).iter().filter(|schema| self.check(schema, value).is_ok()).count() == 1,
            "type" => match rule {
                Json::List(kinds) => kinds.iter().any(|rule| is_of(rule, value)),
                rule => is_of(rule, value),
            },
            "const" => rule == value,
            "enum" => members(rule).contains(value),
            "minimum" => match (rule, value) {
                (Json::Number(least), Json::Number(value)) => value >= least,
                _ => true,
            },
            "minItems" => *rule == Json::Number(1) && !members(value).is_empty(),
            "required" => members(rule).iter().all(|name| field(value, text(name)).is_some()),
            "$ref" | "additionalProperties" | "properties" | "items" => true,
            "$schema" | "$defs" | "title" | "description" => true,
            other => panic!("the keyword {other} isn't known"),
        }
    }

    fn named(&self, name: &Json) -> &Json {
        let name = text(name).strip_prefix("#/$defs/").expect("a definition of the schema");
        field(&self.0, "$defs").and_then(|defs| field(defs, name)).expect("a definition")
    }
}

fn text(value: &Json) -> &str {
    match value {
        Json::Text(text) => text,
        other => panic!("{other} is no text"),
    }
}

fn is_of(kind: &Json, value: &Json) -> bool {
    match text(kind) {
        "null" => *value == Json::Null,
        "boolean" => matches!(value, Json::Bool(_)),
        "integer" => matches!(value, Json::Number(_)),
        "string" => matches!(value, Json::Text(_)),
        "array" => matches!(value, Json::List(_)),
        "object" => matches!(value, Json::Object(_)),
        other => panic!("no kind: {other}"),
    }
}
