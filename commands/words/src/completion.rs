//! Completion for shells, from the table.

use crate::table::{Command, Offer, Opt, COMMANDS, SHELLS};

/// Words that stand where a command does.
const MORE: [&str; 3] = ["help", "man", "completion"];

pub fn of(shell: &str) -> String {
    match shell {
        "bash" => bash(),
        "zsh" => zsh(),
        "fish" => fish(),
        other => unreachable!("{other} is among the shells"),
    }
}

fn commands() -> String {
    let names = COMMANDS.iter().map(|command| command.name);
    names.chain(MORE).collect::<Vec<_>>().join(" ")
}

/// All forms of the options of a command.
fn forms(command: &Command) -> String {
    let forms = command.options().flat_map(|option| {
        let short = option.short.map(|short| format!("-{short}"));
        short.into_iter().chain([format!("--{}", option.long)])
    });
    forms.collect::<Vec<_>>().join(" ")
}

/// A shell's pattern for an option in any form.
fn pattern(option: &Opt) -> String {
    match option.short {
        Some(short) => format!("-{short}|--{}", option.long),
        None => format!("--{}", option.long),
    }
}

// ---- bash

fn bash() -> String {
    let cases: String = COMMANDS.iter().map(bash_case).collect();
    format!(
        r#"# bash completion for daxfolin: eval "$(daxfolin completion bash)"
_daxfolin() {{
    local word=${{COMP_WORDS[COMP_CWORD]}} before=${{COMP_WORDS[COMP_CWORD - 1]}}
    COMPREPLY=()
    if [ "$COMP_CWORD" = 1 ]; then
        mapfile -t COMPREPLY < <(compgen -W "{} --help --version" -- "$word")
        return
    fi
    case ${{COMP_WORDS[1]}} in
    help | man) mapfile -t COMPREPLY < <(compgen -W "{}" -- "$word") ;;
    completion) mapfile -t COMPREPLY < <(compgen -W "{}" -- "$word") ;;
{cases}    esac
}}
_daxfolin_files() {{ # WORD: WAVE files and folders
    mapfile -t COMPREPLY < <(compgen -f -X '!*.[wW][aA][vV]' -- "$1" && compgen -d -- "$1")
}}
_daxfolin_songs() {{ # WORD: MIDI files and folders
    mapfile -t COMPREPLY < <(compgen -f -X '!*.[mM][iI][dD]' -- "$1" && compgen -d -- "$1")
}}
complete -o filenames -F _daxfolin daxfolin
"#,
        commands(),
        names(),
        SHELLS.join(" ")
    )
}

fn names() -> String {
    let names: Vec<&str> = COMMANDS.iter().map(|command| command.name).collect();
    names.join(" ")
}

fn bash_case(command: &Command) -> String {
    let valued = command.options().filter(|option| option.value.is_some());
    let values: String = valued
        .map(|option| {
            let pattern = pattern(option).replace('|', " | ");
            format!("        {pattern}) {} ;;\n", bash_offer(option.offer))
        })
        .collect();
    format!(
        r#"    {})
        case $before in
{values}        *)
            case $word in
            -*) mapfile -t COMPREPLY < <(compgen -W "{}" -- "$word") ;;
            *) {} ;;
            esac
            ;;
        esac
        ;;
"#,
        command.name,
        forms(command),
        bash_offer(command.offer)
    )
}

fn bash_offer(offer: Offer) -> String {
    match offer {
        Offer::Nothing => ":".to_string(),
        Offer::Waves => r#"_daxfolin_files "$word""#.to_string(),
        Offer::Songs => r#"_daxfolin_songs "$word""#.to_string(),
        Offer::Folders => r#"mapfile -t COMPREPLY < <(compgen -d -- "$word")"#.to_string(),
        Offer::Words(words) => format!(
            r#"mapfile -t COMPREPLY < <(compgen -W "{}" -- "$word")"#,
            words.join(" ")
        ),
    }
}

// ---- zsh

fn zsh() -> String {
    let listed: String = COMMANDS
        .iter()
        .map(|command| format!("        '{}:{}'\n", command.name, command.short))
        .collect();
    let cases: String = COMMANDS.iter().map(zsh_case).collect();
    format!(
        "#compdef daxfolin
# zsh completion for daxfolin: daxfolin completion zsh >_daxfolin, in a folder of $fpath
_daxfolin() {{
    local -a commands=(
{listed}        'help:what a command takes'
        'man:a man page'
        'completion:completion for a shell'
    )
    if (( CURRENT == 2 )); then
        _describe command commands
        return
    fi
    local command=$words[2]
    shift words
    (( CURRENT-- ))
    case $command in
    help|man) _values command {} ;;
    completion) _values shell {} ;;
{cases}    esac
}}
# in a folder of $fpath this file is the function itself when it is first asked for
if [[ $funcstack[1] == _daxfolin ]]; then
    _daxfolin \"$@\"
else
    compdef _daxfolin daxfolin
fi
",
        names(),
        SHELLS.join(" ")
    )
}

fn zsh_case(command: &Command) -> String {
    let options: String = command.options().map(zsh_option).collect();
    let files = match command.offer {
        Offer::Waves => " \\\n        '*:file:_files -g \"*.(#i)wav\"'",
        Offer::Folders => " \\\n        '*:folder:_files -/'",
        _ => "",
    };
    format!(
        "    {})\n        _arguments{options}{files}\n        ;;\n",
        command.name
    )
}

fn zsh_option(option: &Opt) -> String {
    let says = first_part(option.says)
        .replace('\'', "'\\''")
        .replace('[', "\\[")
        .replace(']', "\\]");
    let value = match (option.value, option.offer) {
        (None, _) => String::new(),
        (Some(value), Offer::Songs) => format!(":{value}:_files -g \"*.(#i)mid\""),
        (Some(value), Offer::Folders) => format!(":{value}:_files -/"),
        (Some(value), Offer::Words(words)) => format!(":{value}:({})", words.join(" ")),
        (Some(value), _) => format!(":{value}: "),
    };
    // an option that may stand several times
    let star = if option.long == "voice" { "*" } else { "" };
    let long = format!("--{}", option.long);
    match option.short {
        None => format!(" \\\n        '{star}{long}[{says}]{value}'"),
        Some(short) => {
            format!(" \\\n        '(-{short} {long})'{{-{short},{long}}}'[{says}]{value}'")
        }
    }
}

/// What an option does, up to its first colon, semicolon or bracket: enough for a list.
fn first_part(says: &str) -> &str {
    says.split([':', ';', '('])
        .next()
        .unwrap_or(says)
        .trim_end()
}

// ---- fish

fn fish() -> String {
    let mut text = String::from(
        r#"# fish completion for daxfolin: daxfolin completion fish | source
function __daxfolin_files -a ending -d 'Files that end so, and folders'
    set -l word (commandline -ct)
    complete -C "'' $word" | string replace -r '\t.*' '' | string match -ri '.*(?:\.'$ending'|/)$'
end
complete -c daxfolin -f
"#,
    );
    for command in COMMANDS {
        text += &format!(
            "complete -c daxfolin -n __fish_use_subcommand -a {} -d '{}'\n",
            command.name, command.short
        );
    }
    for (name, offered) in [
        ("help", names()),
        ("man", names()),
        ("completion", SHELLS.join(" ")),
    ] {
        text += &format!("complete -c daxfolin -n __fish_use_subcommand -a {name}\n");
        text += &format!(
            "complete -c daxfolin -n '__fish_seen_subcommand_from {name}' -a '{offered}'\n"
        );
    }
    for command in COMMANDS {
        text += &fish_command(command);
    }
    text
}

fn fish_command(command: &Command) -> String {
    let seen = format!(
        "complete -c daxfolin -n '__fish_seen_subcommand_from {}'",
        command.name
    );
    let mut text = String::new();
    if command.offer == Offer::Waves {
        text += &format!("{seen} -a '(__daxfolin_files wav)'\n");
    }
    if command.offer == Offer::Folders {
        text += &format!("{seen} -a '(__fish_complete_directories)'\n");
    }
    for option in command.options() {
        let short = option.short.map(|short| format!(" -s {short}"));
        let offered = match option.offer {
            Offer::Words(words) => format!(" -a '{}'", words.join(" ")),
            Offer::Folders => " -a '(__fish_complete_directories)'".to_string(),
            Offer::Songs => " -a '(__daxfolin_files mid)'".to_string(),
            Offer::Nothing | Offer::Waves => String::new(),
        };
        let value = option.value.map(|_| format!(" -x{offered}"));
        text += &format!(
            "{seen}{} -l {}{} -d '{}'\n",
            short.unwrap_or_default(),
            option.long,
            value.unwrap_or_default(),
            first_part(option.says).replace('\'', "\\'")
        );
    }
    text
}

#[cfg(test)]
mod tests {
    use super::*;

    #[test]
    fn each_option_is_offered() {
        for shell in SHELLS {
            let text = of(shell);
            for command in COMMANDS {
                assert!(text.contains(command.name), "{shell} {}", command.name);
                for option in command.options() {
                    let long = match *shell {
                        "fish" => format!("-l {} ", option.long),
                        _ => format!("--{}", option.long),
                    };
                    assert!(text.contains(&long), "{shell} {long}");
                }
            }
        }
    }
}
