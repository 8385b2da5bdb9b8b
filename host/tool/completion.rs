//! Completion of the words by bash, made from the pages of help.

use crate::help::PAGES;

/// The script: bash reads it once (`eval "$(juzvarola completion)"`, or from the folder of completions).
pub fn bash() -> String {
    let names: Vec<&str> = PAGES.iter().map(|page| page.name).collect();
    let cases: String = PAGES.iter().map(|page| format!("    {}) options=\"{} --help\" ;;\n", page.name, page.options.join(" "))).collect();
    format!(
        "\
# bash completion for juzvarola
_juzvarola() {{
    local word=${{COMP_WORDS[COMP_CWORD]}} before=${{COMP_WORDS[COMP_CWORD-1]}} options=
    COMPREPLY=()
    if [ \"$COMP_CWORD\" -eq 1 ]; then
        COMPREPLY=($(compgen -W \"{} help --help --version\" -- \"$word\"))
        return
    fi
    case ${{COMP_WORDS[1]}} in
{cases}    help) COMPREPLY=($(compgen -W \"{}\" -- \"$word\")); return ;;
    esac
    case $before in
    --step) COMPREPLY=($(compgen -W \"day week month\" -- \"$word\")); return ;;
    --every | --walk | --for | --from | --stops | --take | --calls | --call | --after | --fee | --left | --price | --close | -j | --jobs) return ;;
    esac
    case $word in
    -*) COMPREPLY=($(compgen -W \"$options\" -- \"$word\")) ;;
    *) compopt -o filenames 2> /dev/null; mapfile -t COMPREPLY < <(compgen -f -- \"$word\") ;;
    esac
}}
complete -F _juzvarola juzvarola
",
        names.join(" "),
        names.join(" ")
    )
}
