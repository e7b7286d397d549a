//! The text of a table and a run, read into their bytes.

use fql::record::{self, CLASS, INSTANCE};

use crate::line::Line;
use crate::problem::Problem;
use crate::records::{expect_short, Records};
use crate::table::{is_name, Property, Table};
use crate::{types, value, Files};

pub fn read(text: &[u8]) -> Result<Files, Problem> {
    let mut reader = Reader::default();
    for (number, text) in (1..).zip(decode(text)?.lines()) {
        let line = Line::new(number, text);
        match (line.is_at_end(), line.is_indented()) {
            (true, _) => {}
            (false, true) => reader.inner_line(line)?,
            (false, false) => reader.outer_line(line)?,
        }
    }
    reader.close_section()?;
    Ok(Files { table: reader.table.bytes, run: reader.run.bytes })
}

fn decode(text: &[u8]) -> Result<&str, Problem> {
    std::str::from_utf8(text).map_err(|e| {
        let before = std::str::from_utf8(&text[..e.valid_up_to()]).unwrap();
        let line = before.rsplit('\n').next().unwrap();
        let number = 1 + before.matches('\n').count();
        Problem { line: number, column: 1 + line.chars().count(), what: "the text is not UTF-8 here".to_owned() }
    })
}

/// What an indented line belongs to.
#[derive(Default)]
enum Section {
    #[default]
    None,
    Table,
    /// The line that opened it, and its body so far.
    Instance(usize, Records),
}

#[derive(Default)]
struct Reader {
    table: Records,
    properties: Vec<Option<Property>>,
    run: Records,
    section: Section,
    /// Whether a section was opened before.
    begun: bool,
}

impl Reader {
    fn close_section(&mut self) -> Result<(), Problem> {
        match std::mem::take(&mut self.section) {
            Section::None => {}
            Section::Table => self.properties = Table::read(&self.table.bytes).properties(),
            Section::Instance(line, body) => {
                expect_short(body.bytes.len()).map_err(|what| Problem { line, column: 1, what })?;
                self.run.push(&record::write(INSTANCE, &body.bytes));
            }
        }
        Ok(())
    }

    fn outer_line(&mut self, mut line: Line) -> Result<(), Problem> {
        self.close_section()?;
        let first = !std::mem::replace(&mut self.begun, true);
        match line.word() {
            "class" if first => self.open_class(line),
            "table" if first => self.open(line, Section::Table),
            "class" | "table" => Err(line.problem_of_line("the table comes once, and before all else".to_owned())),
            "instance" => {
                self.run.expect_open(&line)?;
                let section = Section::Instance(line.number(), Records::default());
                self.open(line, section)
            }
            "record" => self.run.raw_record(line),
            "bytes" => self.run.raw_bytes(line),
            _ => {
                let what = "a line that isn't indented starts with class, table, instance, record or bytes";
                Err(line.problem_of_line(what.to_owned()))
            }
        }
    }

    fn open(&mut self, line: Line, section: Section) -> Result<(), Problem> {
        self.section = section;
        line.expect_end()
    }

    fn open_class(&mut self, mut line: Line) -> Result<(), Problem> {
        let name = read_name(&mut line)?;
        self.table.push(&record::write(CLASS, name.as_bytes()));
        self.open(line, Section::Table)
    }

    fn inner_line(&mut self, line: Line) -> Result<(), Problem> {
        match &mut self.section {
            Section::None => Err(line.problem("an indented line needs a class, table or instance above it".to_owned())),
            Section::Table => table_line(line, &mut self.table),
            Section::Instance(_, body) => instance_line(line, &self.properties, body),
        }
    }
}

fn read_name<'a>(line: &mut Line<'a>) -> Result<&'a str, Problem> {
    let start = line.offset();
    let name = line.word();
    match is_name(name) {
        true => Ok(name),
        false => {
            let what = "a name is needed here: a letter or `_`, then letters, digits and `_`, 64 at most";
            Err(line.problem_at(start, what.to_owned()))
        }
    }
}

/// `Temp sint64`, `record 0x0118 0A0B` or `bytes 0A0B`. A property may be called record or bytes: a type follows then.
fn table_line(mut line: Line, table: &mut Records) -> Result<(), Problem> {
    table.expect_open(&line)?;
    let name = read_name(&mut line)?;
    match name {
        "record" if !types::is_word(line.peek_word()) => return table.raw_record(line),
        "bytes" if !types::is_word(line.peek_word()) => return table.raw_bytes(line),
        _ => {}
    }
    let kind = types::read(&mut line)?;
    table.push(&record::write(kind, name.as_bytes()));
    line.expect_end()
}

/// `Temp = -5`, `record 0x0118 0A0B` or `bytes 0A0B`.
fn instance_line(mut line: Line, properties: &[Option<Property>], body: &mut Records) -> Result<(), Problem> {
    body.expect_open(&line)?;
    let start = line.offset();
    let name = read_name(&mut line)?;
    match name {
        "record" if !line.rest().starts_with('=') => return body.raw_record(line),
        "bytes" if !line.rest().starts_with('=') => return body.raw_bytes(line),
        _ => {}
    }
    let kind = match properties.get(body.count) {
        Some(Some(p)) if p.name.eq_ignore_ascii_case(name) => p.kind,
        other => return Err(line.problem_at(start, expected_property(other, name))),
    };
    line.expect("=")?;
    body.push(&value::read(&mut line, kind)?);
    line.expect_end()
}

fn expected_property(next: Option<&Option<Property>>, found: &str) -> String {
    match next {
        Some(Some(p)) => format!("`{}` comes next in the table's order, not `{found}`", p.name),
        Some(None) => "the table's record for this is no property; only `record` can stand here".to_owned(),
        None => "the table has no further property; only `record` can stand here".to_owned(),
    }
}
