//! Man pages, from the table, as groff's `man` text.

use crate::table::{Command, COMMANDS};
use crate::VERSION;

/// The page of a command, or of the program.
pub fn page(command: Option<&Command>) -> String {
    match command {
        Some(command) => of(command),
        None => program(),
    }
}

fn of(command: &Command) -> String {
    let name = command.name;
    let mut text = head(&format!("daxfolin-{name}"), command.short);
    text += ".SH SYNOPSIS\n.nf\n";
    for form in command.forms {
        text += &format!("\\fBdaxfolin {name}\\fR {}\n", escaped(form));
    }
    text += ".fi\n.SH DESCRIPTION\n";
    text += &paragraphs(command.about);
    text += ".SH OPTIONS\n";
    for option in command.options() {
        text += &tagged(&option.typed(), option.says);
    }
    if !command.more.is_empty() {
        text += ".SH NOTES\n";
        text += &paragraphs(command.more);
    }
    text += ".SH EXIT STATUS\n";
    for (status, meaning) in command.statuses {
        text += &tagged(&status.to_string(), meaning);
    }
    text + "Standard error says why.\n" + &see_also(Some(name))
}

fn program() -> String {
    let mut text = head("daxfolin", "a proved tuner for one sung voice");
    text += ".SH SYNOPSIS\n\\fBdaxfolin\\fR COMMAND [OPTION..] [FILE..]\n.SH COMMANDS\n";
    for command in COMMANDS {
        text += &tagged(command.name, command.short);
    }
    text + &see_also(None)
}

fn head(name: &str, short: &str) -> String {
    let title = escaped(&name.to_uppercase());
    format!(
        ".TH {title} 1 \"\" \"daxfolin {VERSION}\" \"Daxfolin\"\n.SH NAME\n{} \\- {}\n",
        escaped(name),
        escaped(short)
    )
}

fn paragraphs(paragraphs: &[&str]) -> String {
    let text = paragraphs.iter();
    text.map(|text| format!(".PP\n{}\n", escaped(text)))
        .collect()
}

fn tagged(tag: &str, says: &str) -> String {
    format!(".TP\n\\fB{}\\fR\n{}\n", escaped(tag), escaped(says))
}

fn see_also(but: Option<&str>) -> String {
    let others = COMMANDS.iter().filter(|command| Some(command.name) != but);
    let names: Vec<String> = others
        .map(|command| format!("\\fBdaxfolin\\-{}\\fR(1)", command.name))
        .collect();
    format!(".SH SEE ALSO\n{}\n", names.join(", "))
}

/// Text that groff prints as it is.
fn escaped(text: &str) -> String {
    let text = text.replace('\\', "\\e").replace('-', "\\-");
    match text.starts_with(['.', '\'']) {
        true => format!("\\&{text}"),
        false => text,
    }
}

#[cfg(test)]
mod tests {
    use super::*;

    #[test]
    fn each_option_and_status_is_said() {
        for command in COMMANDS {
            let page = page(Some(command));
            for option in command.options() {
                assert!(page.contains(&escaped(&option.typed())));
                assert!(page.contains(&escaped(option.says)));
            }
            for (status, meaning) in command.statuses {
                assert!(page.contains(&tagged(&status.to_string(), meaning)));
            }
        }
    }

    #[test]
    fn text_that_groff_would_take_for_a_request() {
        assert_eq!(escaped(".x"), "\\&.x");
        assert_eq!(escaped("'x"), "\\&'x");
        assert_eq!(escaped("a-b\\c"), "a\\-b\\ec");
    }
}
