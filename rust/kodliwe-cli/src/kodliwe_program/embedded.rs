// Made from crates/kodliwe_program/src/embedded.rt by packaging/crate/erase.py: edit that file instead.
//! The manual page and the completions, for users who have the program alone.
//!
//! `packaging/embed` makes this file. Edit the files that it names instead.

/// The text of `docs/kodliwe.1`.
pub const MANUAL: &str = "\
.TH KODLIWE 1 2026-11-26 Kodliwe \"User Commands\"
.SH NAME
kodliwe \\- replace the Rust symbols in a text by their paths
.SH SYNOPSIS
.B kodliwe
.RI [ OPTIONS ]
.RI [ SYMBOL ]...
.SH DESCRIPTION
.B kodliwe
copies text to its standard output, with each Rust symbol in it replaced by its
path.
All other text is copied unchanged, byte for byte.
The text may contain any bytes, and lines of any length.
.PP
A
.I SYMBOL
that is a Rust symbol as a whole prints its path, also without its first
underscore or with one more, as
.B RNvC3foo3bar
and
.BR __ZN3foo3barE .
Any other argument is filtered as text.
Each prints a line of its own, also after an input whose last line has no line
feed.
Without a
.I SYMBOL
and without
.BR \\-\\-input ,
standard input is filtered.
.PP
The program reads both schemes: the legacy one
.RB ( _ZN3foo17h05af221e174051e9E
is
.BR foo ),
and v0, that of Rust RFC 2603
.RB ( _RNvC5crate4main
is
.BR crate::main ).
.PP
A symbol begins with
.B _ZN
or
.B _R
and continues up to the next byte that is not an ASCII letter, a digit,
.BR $ ,
.B .
or
.BR _ .
In a text, a symbol that begins with
.B _RC
is copied unchanged, so version numbers such as
.B v1.0_RC0
stay.
It is a crate alone, for which compilers make no symbol.
macOS writes one more
.B _
before a symbol.
The path replaces that one too, if it is the first byte or follows a byte that
no
symbol may have.
A suffix that ThinLTO appended
.RB ( .llvm.
and hexadecimal digits in upper case)
is left out.
Any other suffix that begins with
.B .
is kept.
An
.B @
ends the search for a symbol, so the text after it is kept.
Text that is not a Rust symbol, such as the symbol of a C++ function, is copied
unchanged.
.PP
All text that is certain is written before the program waits for more input, so
it can follow a log.
.PP
If standard output is a regular file and that file is an input too, nothing is
read and the status is 1.
The program compares the device and the inode, so the names of the file do not
matter.
If the system does not report them, the input is read.
.B \\-\\-output
may name an input.
.SH NOTES ON STANDARD ERROR
A note is one line, and changes neither the output nor the status.
.TP
.B kodliwe: reading standard input; press Ctrl\\-D to end
No input and no
.I SYMBOL
was given, and standard input is a terminal.
.TP
.BI \"kodliwe: note: '\" WORD \"' is a file; use \\-i to read it\"
The first
.I SYMBOL
without a Rust symbol in it names a regular file.
.TP
.BI \"kodliwe: note: \" INPUT \" looks compressed (\" FORMAT \"); decompress it first\"
The first bytes of
.I INPUT
are the magic number of
.I FORMAT
.RB ( gzip \", \" zstd \", \" xz \", \" lz4 \" or \" bzip2 ).
Its symbols are not found.
.TP
.BI \"kodliwe: note: \" INPUT \" looks encoded (UTF\\-16); convert it to UTF\\-8 first\"
.I INPUT
begins with a byte order mark of UTF\\-16.
Its symbols are not found.
.PP
The last two notes are about the bytes of the first read.
If a pipe has fewer bytes than the magic number, the program does not wait for
more, and there is no note.
The input is filtered all the same, since any text may begin with these bytes.
.SH OPTIONS
Options and symbols may come in any order.
.TP
.BR \\-i \", \" \\-\\-input =\\fIFILE\\fR
Filter
.IR FILE ;
.B \\-
is standard input, and so is an argument that is only
.BR \\- .
The option may be given several times.
Inputs and symbols are filtered in the order of the arguments, each on its own:
a symbol does not continue from one into the next.
A file is not opened before the program reads it.
.TP
.BR \\-o \", \" \\-\\-output =\\fIFILE\\fR
Write into
.IR FILE ;
.B \\-
is standard output.
The option may be given once.
The output is written into a file without a name, in the folder of
.IR FILE .
When it is complete, it is copied into a new file, which replaces
.IR FILE .
The name of the new file is that of
.I FILE
with
.B .kodliwe\\-
and the first free number appended.
So an error leaves the old file unchanged, and
.I FILE
may be one of the inputs.
The disk needs room for the output twice.
.IP
A signal that ends the program leaves the old file unchanged, and while the
program filters, no new one.
Only in two moments a new file with that name is left: at the start, before the
first file loses its name, and at the end, while the output is copied.
It may be removed, and other runs take other numbers.
.IP
If
.I FILE
is a symbolic link, it stays, and the file to which it leads is replaced, or
created if there is none.
.IP
If
.I FILE
exists, no other user may open the new file before it is complete.
Then it gets the owner, the group and the permissions of
.IR FILE ,
where the system allows that.
If the owner can't be kept, it is the user who runs the program.
If the group can't be kept, the group and all others may do what both of them
could do before.
The bits of set\\-uid, set\\-gid and sticky are never set.
Access control lists and other attributes are not kept.
A
.I FILE
that the user may not write is not replaced, and the status is 1.
.IP
A device or a pipe is written directly.
.BR /dev/stdout ,
.B /dev/fd/1
and
.B /proc/self/fd/1
are standard output, which keeps its position.
.TP
.B \\-\\-hash
Keep what distinguishes symbols of the same name.
This is the hash at the end of a legacy symbol, and the disambiguators of crates
and the types of numbers of a v0 symbol.
.TP
.BR \\-f \", \" \\-\\-fold
Print generic arguments as
.BR _ .
All instances of a function then have one name, such as
.BR foo::bar::<_> .
Only v0 symbols are folded: the arguments of a legacy symbol are parts of names.
.TP
.BR \\-l \", \" \\-\\-limit =\\fIBYTES\\fR
Cut each path at
.IR BYTES .
Without this option, the path of a symbol of n bytes is cut at 999 n \\- 20
bytes, and at 1,000,000 at most.
So the output has at most 1,000 bytes for each byte of the input, and the time
grows with the input alone.
With this option, both may also grow with
.IR BYTES .
A path is also cut where the references of its symbol would have more than
384 n bytes, or more than 384,000,000, read again, whatever this option says.
So at most 23,650 looks at a byte are made for each byte of the input.
.TP
.B \\-\\-man
Print this page.
.B kodliwe \\-\\-man | man \\-l \\-
shows it.
.TP
.BR \\-\\-completions =\\fISHELL\\fR
Print the file by which
.I SHELL
completes the options: that of
.BR bash ,
.B zsh
or
.BR fish .
.TP
.BR \\-h \", \" \\-\\-help
Print the options.
.TP
.BR \\-V \", \" \\-\\-version
Print the version, how the program was built, and the licence, one on each line.
A program that the prover built shows the checksum of the logic that the proofs
were checked with.
One that
.B cargo
built is not proved itself, and says so.
.IP
After the first one of these four options, no argument is read.
.TP
.B \\-\\-
Each argument after it is a symbol.
.SH EXIT STATUS
.TP
.B 0
All of the output was written, or the reader of the output has closed it.
.TP
.B 1
An input could not be read, the output could not be written, or memory ran out.
Or an input is the file that standard output writes to.
One line on standard error says which, and why.
All that was written before the error is kept.
If the writing did not fail, the inputs before this one were copied completely,
and this one up to some place that is not inside a symbol.
.TP
.B 2
An argument begins with
.B \\-
and is not an option, or an option lacks its
.IR FILE ,
its number of
.I BYTES
or its
.IR SHELL .
Or
.B \\-o
is given twice, or an argument is not UTF-8.
Nothing was read.
.SH LIMITS
The path of a symbol of n bytes is cut at 999 n \\- 20 bytes, and at 1,000,000 at
most, or at those of
.BR \\-\\-limit .
It is also cut where the references of the symbol would have more than 384 n
bytes, or more than 384,000,000, read again.
Then
.B {size limit reached}
follows it.
Back references in a v0 symbol are followed up to 500 levels.
The texts
.BR \"{recursion limit reached}\" ,
.B {invalid syntax}
and
.B ?
show that one could not be followed or read.
If the stack is large enough, no symbol, however it is made, makes a program
that the prover built crash or run for ever.
.PP
A path is printed as the symbol spells it, and not escaped for HTML, JSON or a
terminal.
.B _RINvC3foo3barhE
prints
.BR foo::bar::<u8> ,
whose brackets end a tag in an SVG, and
.B _RNvC3foou11a31mred_hga
has U+009B, which begins a command of some terminals.
.PP
The program needs memory for the longest symbol, whatever the length of a line.
It remembers the paths of symbols in at most 5.5 MB, or 7.6 MB while that grows.
.SH EXAMPLES
.RS
.EX
$ kodliwe _ZN3foo17h05af221e174051e9E
foo
$ kodliwe \\-\\-fold _RINvC3foo3barhE
foo::bar::<_>
$ nm program | kodliwe
$ nm \\-S \\-\\-size\\-sort \\-t d program | kodliwe \\-\\-fold |
  awk \\(aq{ n = $2; $1 = $2 = $3 = \"\"; size[$0] += n }
       END { for (f in size) print size[f] f }\\(aq | sort \\-n
$ tail \\-f log | kodliwe
$ kodliwe \\-i crash.map \\-o crash.map
$ kodliwe \\-\\-completions bash > ~/.local/share/bash\\-completion/completions/kodliwe
.EE
.RE
.SH SEE ALSO
.BR demangle_filter (1),
.BR c++filt (1),
.BR rustfilt (1),
.BR nm (1)
.PP
Rust RFC 2603, Rust symbol name mangling, version 0.
";

/// The text of `completions/kodliwe.bash`.
pub const BASH: &str = "\
# bash completion for kodliwe
_kodliwe() {
    local word=${COMP_WORDS[COMP_CWORD]} before=${COMP_WORDS[COMP_CWORD-1]} option=\"\" i
    COMPREPLY=()
    # After <, >, >> and their kin comes a file, whatever is before them.
    if [[ $word =~ ^[0-9]*[\\<\\>\\&\\|]+$ ]]; then
        before=$word word=
    fi
    if [[ $before =~ ^[0-9]*[\\<\\>\\&\\|]+$ ]]; then
        compopt -o filenames 2>/dev/null
        mapfile -t COMPREPLY < <(compgen -f -- \"$word\")
        return
    fi
    for ((i = 1; i < COMP_CWORD; i++)); do
        if [[ ${COMP_WORDS[i]} == -- ]]; then
            return
        fi
    done
    # Where = ends a word, as bash has it, --input=F is the three words --input, = and F.
    if [[ $word == = ]]; then
        word=
    elif [[ $before == = ]] && ((COMP_CWORD >= 2)); then
        before=${COMP_WORDS[COMP_CWORD-2]}
    elif [[ $word == --*=* ]]; then
        before=${word%%=*} option=${word%%=*}= word=${word#*=}
    fi
    case $before in
        -i | --input | -o | --output)
            compopt -o filenames 2>/dev/null
            mapfile -t COMPREPLY < <(compgen -P \"$option\" -f -- \"$word\")
            return
            ;;
    esac
    if [[ $before == -l || $before == --limit ]]; then
        return
    fi
    if [[ $before == --completions ]]; then
        mapfile -t COMPREPLY < <(compgen -P \"$option\" -W 'bash zsh fish' -- \"$word\")
        return
    fi
    if [[ $word == -* ]]; then
        mapfile -t COMPREPLY < <(compgen -W '-i --input -o --output --hash -f --fold -l --limit --man --completions -h --help -V --version' -- \"$word\")
    fi
}
complete -F _kodliwe kodliwe
";

/// The text of `completions/_kodliwe`.
pub const ZSH: &str = "\
#compdef kodliwe
# zsh completion for kodliwe
_arguments -S \\
    '*'{-i+,--input=}'[read this file; - is standard input]:file:_files' \\
    '(-o --output)'{-o+,--output=}'[write this file, once all of it is written]:file:_files' \\
    '--hash[keep the hashes of legacy symbols]' \\
    '(-f --fold)'{-f,--fold}'[print generic arguments as _]' \\
    '(-l --limit)'{-l+,--limit=}'[cut each path at this many bytes]:bytes:' \\
    '(- *)--man[print the manual page]' \\
    '(- *)--completions=[print the completions of a shell]:shell:(bash zsh fish)' \\
    '(- *)'{-h,--help}'[print the help]' \\
    '(- *)'{-V,--version}'[print the version, how it was built, and the licence]' \\
    '*:symbol:'
";

/// The text of `completions/kodliwe.fish`.
pub const FISH: &str = "\
# fish completion for kodliwe
# fish joins options of -s, as -fh. kodliwe does not, so its short options are of -o.
complete -c kodliwe -f
complete -c kodliwe -o i -l input -r -F -d 'Read this file; - is standard input'
complete -c kodliwe -o o -l output -r -F -d 'Write this file, once all of it is written'
complete -c kodliwe -l hash -d 'Keep the hashes of legacy symbols'
complete -c kodliwe -o f -l fold -d 'Print generic arguments as _'
complete -c kodliwe -o l -l limit -x -d 'Cut each path at this many bytes'
complete -c kodliwe -l man -d 'Print the manual page'
complete -c kodliwe -l completions -x -a 'bash zsh fish' -d 'Print the completions of a shell'
complete -c kodliwe -o h -l help -d 'Print the help'
complete -c kodliwe -o V -l version -d 'Print the version, how it was built, and the licence'
";
