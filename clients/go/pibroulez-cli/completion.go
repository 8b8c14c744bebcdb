package main

import (
	"context"
	"fmt"
	"regexp"
	"strings"

	"pibroulez.example/pibroulez"
	"pibroulez.example/pibroulez/told"
)

// The words of each shell. A word stands for itself but for @TENANTS, names of tenants, and @FILES.
var shells = map[string]string{"bash": ofBash, "zsh": ofZsh, "fish": ofFish}

// Prints the completion for a shell, and for `tenants`, which these ask, names of tenants.
func completion(ctx context.Context, given words) (answer, error) {
	if given.rest[1] == "tenants" {
		return plainTenants(ctx, given)
	}
	text, isThere := shells[given.rest[1]]
	if !isThere {
		return answer{}, fmt.Errorf("%w: no completion for %q, but for bash, zsh and fish", errWords, given.rest[1])
	}
	text = strings.ReplaceAll(text, "@TAKING", strings.Join(takingOptions(), "|"))
	return answer{words: strings.ReplaceAll(text, "@CASES", cases())}, nil
}

// A name that each shell takes as it is.
var plain = regexp.MustCompile(`^[A-Za-z0-9_.][A-Za-z0-9_./@%+-]*$`)

// The tenants that the caller may see, but for names that a shell might take for more than a word.
func plainTenants(ctx context.Context, given words) (answer, error) {
	store, err := pibroulez.New(ctx, pibroulez.Config{Socket: given.socket})
	if err != nil {
		return answer{}, err
	}
	defer store.Close()
	quotas, err := store.Quotas(ctx)
	var text strings.Builder
	for _, name := range told.Sorted(quotas) {
		if plain.MatchString(name) {
			fmt.Fprintln(&text, name)
		}
	}
	return answer{words: text.String()}, err
}

// The options with a value, as a shell's patterns.
func takingOptions() (all []string) {
	for _, name := range told.Sorted(takes) {
		all = append(all, "--"+name)
	}
	return all
}

// The cases of a POSIX `case` by the words before the one that is completed, of which $options and $choices are set: first
func cases() string {
	var all strings.Builder
	add := func(pattern string, options []string, choices string) {
		for i, it := range options {
			options[i] = "--" + it
		}
		fmt.Fprintf(&all, "        %s) options=\"%s\" choices=\"%s\" ;;\n", pattern, strings.Join(options, " "), choices)
	}
	var first, ofCluster []string
	isOption := map[string]bool{"help": true, "version": true}
	for _, it := range commands {
		for _, option := range it.options() {
			isOption[option] = true
		}
		if name := strings.TrimPrefix(it.name, "cluster "); name != it.name {
			ofCluster = append(ofCluster, name)
		} else {
			first = append(first, name)
		}
	}
	add(`""`, told.Sorted(isOption), strings.Join(append(first, "cluster"), " "))
	add(`"cluster "`, commands[len(commands)-1].options(), strings.Join(ofCluster, " "))
	for _, it := range commands {
		for number, operand := range it.operands() {
			if choices := choicesOf(it, operand); choices != "" {
				add(`"`+it.name+" "+strings.Repeat("x ", number)+`"`, it.options(), choices)
			}
		}
		add(`"`+it.name+` "*`, it.options(), "")
	}
	return all.String()
}

// What a word of a command may be. The tenants of a cluster are etcd's, which is not asked.
func choicesOf(it command, operand string) string {
	switch strings.Trim(operand, "[]") {
	case "TENANT":
		if !it.ofCluster {
			return "@TENANTS"
		}
	case "SHELL":
		return "bash zsh fish"
	case "FILE", "OTHER":
		return "@FILES"
	}
	return ""
}

// Each goes through the words before the one that is completed, and keeps in $before the command with a blank behind it, and
// `x ` for each further word that is no option.
const ofBash = `# Completion for bash, as ` + "`pibroulez completion bash`" + ` prints it.
_pibroulez()
{
    local current=${COMP_WORDS[COMP_CWORD]} before='' options='' choices='' i word taking='' socket='' ended=''
    for ((i = 1; i < COMP_CWORD; i++)); do
        word=${COMP_WORDS[i]}
        if [ "$word" = = ]; then
            taking=${COMP_WORDS[i - 1]}
        elif [ -n "$taking" ]; then
            [ "$taking" = --socket ] && socket=$word
            taking=''
        else
            case $ended$word in
            @TAKING) taking=$word ;;
            --) ended=x ;;
            -*) ;;
            *) if [ -z "$before" ] || [ "$before" = 'cluster ' ]; then before="$before$word "; else before="${before}x "; fi ;;
            esac
        fi
    done
    if [ "$current" = = ]; then
        current='' taking=${COMP_WORDS[COMP_CWORD - 1]}
    fi
    COMPREPLY=()
    case $taking in
    --socket|--root|--program|--cacert|--cert|--key)
        compopt -o filenames
        mapfile -t COMPREPLY < <(compgen -f -- "$current")
        return ;;
    ?*) return ;;
    esac
    case $before in
@CASES    esac
    [ "$choices" = @TENANTS ] && choices=$(pibroulez ${socket:+--socket "$socket"} completion tenants 2>/dev/null)
    case $ended$current in
    -*) choices=$options ;;
    esac
    if [ "$choices" = @FILES ]; then
        compopt -o filenames
        mapfile -t COMPREPLY < <(compgen -f -- "$current")
        return
    fi
    mapfile -t COMPREPLY < <(compgen -W "$choices" -- "$current")
}
complete -F _pibroulez pibroulez
`

const ofZsh = `#compdef pibroulez
# Completion for zsh, as ` + "`pibroulez completion zsh`" + ` prints it.
_pibroulez()
{
    local before='' options='' choices='' i word taking='' socket='' ended=''
    for ((i = 2; i < CURRENT; i++)); do
        word=${(Q)words[i]}
        if [[ -n $taking ]]; then
            [[ $taking = --socket ]] && socket=$word
            taking=''
        else
            case $ended$word in
            (@TAKING) taking=$word ;;
            (--socket=*) socket=${word#--socket=} ;;
            (--) ended=x ;;
            (-*) ;;
            (*) if [[ -z $before || $before = 'cluster ' ]]; then before="$before$word "; else before="${before}x "; fi ;;
            esac
        fi
    done
    word=$words[CURRENT]
    case $ended$word in
    (--*=*) taking=${word%%=*}; compset -P '*=' ;;
    esac
    case $taking in
    (--socket|--root|--program|--cacert|--cert|--key) _files; return ;;
    (?*) return 1 ;;
    esac
    case $before in
@CASES    esac
    [[ $choices = @TENANTS ]] && choices=$(pibroulez ${socket:+--socket=$socket} completion tenants 2>/dev/null)
    [[ $ended$word = -* ]] && choices=$options
    [[ $choices = @FILES ]] && { _files; return; }
    compadd -- ${=choices}
}
if [[ $funcstack[1] = _pibroulez ]]; then
    _pibroulez "$@"
else
    compdef _pibroulez pibroulez
fi
`

// Fish has no such case: a POSIX shell, which is there wherever a daemon is, answers it.
const ofFish = `# Completion for fish, as ` + "`pibroulez completion fish`" + ` prints it.
function __pibroulez_choices
    set -l before ''
    set -l taking ''
    set -l socket
    set -l ended ''
    set -l words (commandline -opc)
    for word in $words[2..-1]
        if test -n "$taking"
            test "$taking" = --socket; and set socket $word
            set taking ''
        else if string match -qr -- '^(@TAKING)$' "$ended$word"
            set taking $word
        else if string match -q -- '--socket=*' "$ended$word"
            set socket (string replace -- '--socket=' '' $word)
        else if test "$ended$word" = --
            set ended x
        else if string match -q -- '-*' "$ended$word"
            continue
        else if test -z "$before" -o "$before" = 'cluster '
            set before "$before$word "
        else
            set before "$before"'x '
        end
    end
    set -l current (commandline -ct)
    if string match -q -- '--*=*' "$ended$current"
        set taking (string replace -r -- '=.*' '' $current)
        set -l begin (string replace -r -- '=.*' '=' $current)
        contains -- $taking --socket --root --program --cacert --cert --key
        and string replace -r -- '^' $begin (__fish_complete_path (string replace -r -- '^[^=]*=' '' $current))
        return
    end
    if test -n "$taking"
        contains -- $taking --socket --root --program --cacert --cert --key; and __fish_complete_path $current
        return
    end
    set -l both (sh -c 'case $1 in
@CASES    esac
    printf "%s\n%s\n" "$options" "$choices"' sh $before)
    if string match -q -- '-*' "$ended$current"
        string split -n ' ' -- $both[1]
    else if test "$both[2]" = @FILES
        __fish_complete_path $current
    else if test "$both[2]" = @TENANTS
        test -n "$socket"; and set socket --socket=$socket
        pibroulez $socket completion tenants 2>/dev/null
    else
        string split -n ' ' -- $both[2]
    end
end
complete -c pibroulez -f -a '(__pibroulez_choices)'
`
