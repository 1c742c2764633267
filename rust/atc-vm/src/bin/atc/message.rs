//! A message to a person: what is wrong, where, and what may help.

use crate::json::Json;
use crate::paint::Paint;
use crate::place::Place;

#[derive(Debug, Clone)]
pub struct Message {
    /// `error`, `error[13]` or `note`.
    pub kind: String,
    /// What is wrong, in the words of the number.
    pub headline: String,
    pub place: Option<Place>,
    /// What is wrong there.
    pub label: String,
    pub helps: Vec<String>,
}

impl Message {
    pub fn note(headline: String, place: Place, label: String) -> Message {
        Message {
            kind: "note".to_string(),
            headline,
            place: Some(place),
            label,
            helps: Vec::new(),
        }
    }

    pub fn shown(&self, paint: Paint) -> String {
        let kind = if self.kind == "note" {
            paint.bold(&self.kind)
        } else {
            paint.red(&self.kind)
        };
        let mut shown = format!("{kind}: {}\n", paint.bold(&self.headline));
        let margin = self
            .place
            .as_ref()
            .map_or(0, |place| place.line.to_string().len());
        let margin = " ".repeat(margin);
        match &self.place {
            Some(place) => {
                let Place {
                    line,
                    excerpt,
                    mark,
                    ..
                } = place;
                let mark = paint.red(mark);
                shown += &format!("{margin}--> {}\n", place.shown());
                shown += &format!(
                    "{margin} |\n{line} | {excerpt}\n{margin} | {mark} {}\n",
                    self.label
                );
            }
            None if self.label.is_empty() => (),
            None => shown += &format!(" = {}\n", self.label),
        }
        for help in &self.helps {
            shown += &format!("{margin} = {help}\n");
        }
        shown
    }

    pub fn json(&self) -> Vec<(&'static str, Json)> {
        let place = self.place.as_ref().map(|place| {
            Json::Object(vec![
                ("file", place.file.as_str().into()),
                ("line", place.line.into()),
                ("column", place.column.into()),
            ])
        });
        vec![
            ("headline", self.headline.as_str().into()),
            ("place", place.into()),
            ("message", self.label.as_str().into()),
            ("helps", self.helps.clone().into()),
        ]
    }
}

pub fn notes_json(notes: &[Message]) -> Json {
    Json::List(notes.iter().map(|note| Json::Object(note.json())).collect())
}
