//! Filters of the sample class, as FQL and, where they can be said there, as the condition of a SELECT. The datetimes
//! are all of one form and one zone, so that SQL may compare their texts.

pub struct Filter {
    pub kind: &'static str,
    pub fql: String,
    pub sql: Option<String>,
}

impl Filter {
    pub fn new(kind: &'static str, fql: &str, sql: Option<&str>) -> Filter {
        Filter { kind, fql: fql.into(), sql: sql.map(Into::into) }
    }

    /// One that reads the same in SQL.
    pub fn alike(kind: &'static str, text: &str) -> Filter {
        Filter::new(kind, text, Some(text))
    }
}

/// Those that name `Temp` and nothing else.
pub fn filters_of_temp() -> Vec<Filter> {
    let many: Vec<String> = (0..16).map(|n| format!("Temp <> {}", 1000 + n)).collect();
    vec![Filter::alike("one comparison", "Temp > 0"), Filter::alike("sixteen comparisons", &many.join(" AND "))]
}

pub fn filters() -> Vec<Filter> {
    let groups = "(Temp > 0 AND On = TRUE) OR (Dev[1] = 14 OR R >= .75) AND (Name <> 'FAN_100' AND Temp < 40)";
    let others = [
        Filter::new("array", "Dev = {3,14}", None),
        Filter::new("ANY", "ANY Dev = 14", None),
        Filter::new("LIKE", "Name LIKE 'FAN_.*'", Some("Name GLOB 'FAN_*'")),
        Filter::alike("datetime and real", "Since < '20050701000000.000000+000' AND R >= .25"),
        Filter::alike("text equality", "Name = 'FAN_100'"),
        Filter::new("three groups", groups, None),
    ];
    filters_of_temp().into_iter().chain(others).collect()
}
