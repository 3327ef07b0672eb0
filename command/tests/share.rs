//! What is installed beside the command: the manual page is that of the help, and the completions find the words there.

mod shell;

use shell::{is_installed, prints, run, sides};

const BASH: &str = "source $crate/share/bash-completion/completions/base62";

/// What a line of bash prints. It has to end well.
fn output_of(line: &str) -> String {
    let (status, output, errors) = run(line);
    assert_eq!((status, errors), (Some(0), String::new()), "{line}");
    output
}

#[test]
fn page() {
    if !is_installed("help2man") {
        return;
    }
    // If the help has changed, tests/page writes the page anew.
    let line = "$crate/tests/page | diff - $crate/share/man/man1/base62.1";
    prints(line, "");
}

/// Compares the words that are completed behind some arguments.
fn are_completed(completed: impl Fn(&str) -> String) {
    let table = "
        -> --help --version -V -h decode encode help range
        help -> --help --version -V -h decode encode help range
        encode -> --alphabet --alternative --hex --keep-empty --uuid --width -A -a -e -u -w -x
        decode -> --alphabet --alternative --canonical --hex --keep-empty --uuid --width -A -a -c -e -u -w -x
        range -> --alphabet --alternative --width -A -a -w";
    for (arguments, words) in sides(table) {
        let output = completed(arguments);
        let mut completions: Vec<_> = output.lines().collect();
        completions.sort_unstable();
        assert_eq!(completions.join(" "), words, "{arguments}");
    }
}

#[test]
fn words_in_bash() {
    let completed = |words: &str| {
        let line = format!(
            "{BASH}; compopt() {{ echo $@; }}; COMP_WORDS=(base62 {words})
            COMP_CWORD=$((${{#COMP_WORDS[@]}} - 1)); _base62; printf '%s\n' ${{COMPREPLY[@]}}"
        );
        output_of(&line)
    };
    are_completed(|arguments| completed(&format!("{arguments} ''")));
    assert_eq!(completed("-a decode -x --c"), "--canonical\n");
    // In the place of a value there is no word.
    for words in ["encode -w ''", "encode --width ''", "range -A ''"] {
        assert_eq!(completed(words), "\n");
    }
    // Behind a redirection, bash completes the names of files.
    for words in ["'<' ''", "'<'", "decode '2>' 5"] {
        assert_eq!(completed(words), "-o default\n\n");
    }
    let completion = output_of(&format!("{BASH}; complete -p base62"));
    assert_eq!(completion, "complete -F _base62 base62\n");
}

#[test]
fn words_in_fish() {
    if !is_installed("fish") {
        return;
    }
    let completed = |words: &str| {
        let file = "$crate/share/fish/vendor_completions.d/base62.fish";
        let line = format!("source {file}; complete -C 'base62 {words}'");
        output_of(&format!("fish --no-config -c \"{line}\""))
    };
    are_completed(|arguments| {
        let lines = ["", "-"].map(|word| completed(&format!("{arguments} {word}")));
        let words = lines.iter().flat_map(|lines| lines.lines());
        let words: Vec<_> = words.map(|line| line.split('\t').next().unwrap()).collect();
        words.join("\n")
    });
    assert_eq!(completed("decode --h"), "--hex\tnumbers are hexadecimal\n");
    // An option that needs a value is the last of an argument.
    assert_eq!(completed("encode -w"), "");
}

/// A zsh at a terminal of its own, in which the tab key is pressed behind each line of `$lines`. It writes each word that it
/// completes to the file `$found`.
const ZSH_AT_TERMINAL: &str = r#"
found=$(mktemp); trap 'rm $found' EXIT; export found lines
start='fpath=($crate/share/zsh/site-functions $fpath); autoload -Uz compinit; compinit -u -D; LISTMAX=1000
    compadd() {
        local -a hits
        [[ ${@[1,(i)--]} = *\ -[OAD]\ * ]] || { builtin compadd -A hits "$@"; print -rl -- $hits >>$found }
        builtin compadd "$@"
    }
    clear() { BUFFER= }; zle -N clear; bindkey ^X clear
    leave() { exit }; zle -N leave; bindkey ^G leave; echo rea""dy' timeout 300 zsh -fc '
    zmodload zsh/zpty
    zpty terminal zsh -fi
    zpty -w terminal "eval \$start"
    zpty -r terminal said "*ready*"
    for line in ${(f)lines}; zpty -n -w terminal "$line"$'"'\t\x18'"'
    zpty -n -w terminal $'"'\a'"'
    while zpty -r terminal said; do :; done'
sort -u $found | grep ."#;

#[test]
fn words_in_zsh() {
    if !is_installed("zsh") {
        return;
    }
    let completed = |lines: &str| output_of(&format!("lines='{lines}'; {ZSH_AT_TERMINAL}"));
    // Without a hyphen it completes subcommands, if there is none.
    are_completed(|arguments| completed(&format!("base62 {arguments} \nbase62 {arguments} -")));
    assert_eq!(completed("base62 decode --c"), "--canonical\n");
    // In the place of a value there is no word, and no option twice.
    let line =
        "base62 encode --width \nbase62 -a decode -c --c\nbase62 range -w5 --w\nbase62 range --w";
    assert_eq!(completed(line), "--width\n");
}
