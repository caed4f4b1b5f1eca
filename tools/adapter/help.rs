//! What the program says about itself.

pub const VERSION: &str = "adapter, the AMR-WB voice adapter's program over level three\n";

pub const USAGE: &str = "\
usage: adapter convert|validate|report|frames|round-trip [OPTION..] [INPUT..]
       adapter merge [OPTION..] FIRST SECOND
       adapter sheet check [INPUT..]
       adapter --help, adapter COMMAND --help, adapter --version
";

pub const GENERAL: &str = "\
usage: adapter COMMAND [OPTION..] [INPUT..]

Works on recordings of AMR-WB frames, of at most 16777215 octets, and on ordering tables that a user supplies (sheets).

  convert      writes a recording in another format
  merge        writes one recording of two of the same talk, where the second fills the gaps of the first
  validate     says whether a recording is valid
  report       counts a recording's frames by class
  frames       lists a recording's frames
  round-trip   says whether a recording comes back unchanged from another format
  sheet check  says whether a text is a sheet of mode 5, 6, 7 or 8
  help         this text; with a command's name, that command's

  adapter COMMAND --help    what the command does, and its options
  adapter --version         what this program is

Formats: if1 and if2 (3GPP TS 26.201, IF1 and IF2) and stored (RFC 4867's storage format). Where --from (or --format) is
not given, a file that begins with the header \"#!AMR-WB\" and a line feed is taken as stored, unless it is a valid
IF2 recording too. Every other file needs its format named: nothing in it tells IF1 from IF2, and file names are not
looked at.

Inputs are files; - or no input is standard input. merge takes two, the others any number. An input is never written.
Options and inputs may be mixed; behind -- there are inputs only. In what is printed, an octet of a name that is no UTF-8
or a control character is \\xNN.

Results go to standard output; refusals and other messages to standard error. A refusal has its number and meaning and,
where it concerns a frame, the frame, counted from 0, its first octet, counted from 0 with the header, and its time in
the recording, at 20 ms a frame. With several inputs, those with trouble do not stop the others, but for merge, and are
listed again at the end; on a terminal a line shows how far it is.

Exit status, the highest of all inputs':
  0  done
  1  a recording or a sheet was refused, or a recording did not come back unchanged
  2  wrong use, or a format that must be named
  3  an input could not be read, or an output could not be written
";

pub const CONVERT: &str = "\
usage: adapter convert --to FORMAT [--from FORMAT] [--request MODE] [--output FILE | --into FOLDER] [INPUT..]

Writes a recording in another format: if1, if2 or stored.

  --to FORMAT          the format to write
  --from FORMAT        the input's format; not needed where the header of the storage format tells it
  --request MODE       the mode request, 0 to 8, that IF1 frames get from IF2 or stored ones; 0 where it is not given
  -o, --output FILE    where to write; - or neither this nor --into is standard output, which must be no terminal
  --into FOLDER        writes each input to this folder, under the input's name with the extension .if1, .if2 or .awb;
                       needed for several inputs; the folder must be there

An output file appears whole or not at all: it is written beside, under a name like .adapter-123-0.tmp, and renamed; only
a killed program leaves that name behind. A file that is there already is replaced so, with its permissions kept, unless
it is write-protected; a symbolic link stays, and the file that it leads to is replaced. A device or a pipe is written
directly. An output that is an input, under any name, and two inputs with one output are wrong use, told before anything
is written. A refused input leaves no output.

Exit status: 0 done, 1 refused, 2 wrong use, 3 input or output failed.
";

pub const MERGE: &str = "\
usage: adapter merge [--from FORMAT] [--output FILE] FIRST SECOND

Writes one recording of two of the same talk, in the format that both have: frame by frame the first's, but the second's
where the first's is lost or empty, or where the first has ended, and the second still has a frame, be it lost or empty
too. So it lasts as long as the longer. Frames are matched by number: both must begin at the same time. Empty ones are
also those of silence. A bad frame of the first is kept. Frames are copied: in IF1 they keep mode indication, mode
request and CRC.

  --from FORMAT        the format of both: if1, if2 or stored; not needed where the header of the storage format tells it
                       of both
  -o, --output FILE    where to write, as convert does; - or none is standard output, which must be no terminal

FIRST or SECOND may be -, standard input. When the recording is written, standard error says how long it is, and which of
its frames came from the second, by number and time:
  OUTPUT: N frames, N octets, M:SS.mmm
  from SECOND: 27 frames, 9 of them lost or empty:
    3 to 9, 0:00.060 to 0:00.200
    40 to 52, 0:00.800 to 0:01.060, 2 of them lost or empty
    and 3 runs that are all lost or empty
A refusal names the recording that is refused, or merge itself where the result would be too long, and leaves no output.
The first is judged before the second.

Exit status: 0 done, 1 refused, 2 wrong use, 3 input or output failed.
";

pub const VALIDATE: &str = "\
usage: adapter validate [--from FORMAT] [INPUT..]

Reads each recording to its end. Prints, for a valid one:
  NAME: valid, FORMAT, N frames, N octets, M:SS.mmm
and otherwise the refusal, on standard error.

  --from FORMAT        the inputs' format: if1, if2 or stored; not needed where the header of the storage format tells it

Exit status: 0 all are valid, 1 refused, 2 wrong use, 3 input or output failed.
";

pub const REPORT: &str = "\
usage: adapter report [--long [--from FORMAT]] [INPUT..]

Prints seven lines on a stored recording of at most 65536 octets: format=, octets=, frames=, speech=, comfort=, lost= and
empty=, the last four being frames of type 0 to 8, 9, 14 and 15. On a refused one it prints refusal=, frame= and octet=
only. With several inputs, a line with the name and a colon comes before each.

  --long               takes recordings of up to 16777215 octets, and of every format
  --from FORMAT        the inputs' format, with --long: if1, if2 or stored; not needed where the header of the storage
                       format tells it

Exit status: 0 done, 1 refused, 2 wrong use, 3 input or output failed.
";

pub const FRAMES: &str = "\
usage: adapter frames [--from FORMAT] [INPUT..]

Prints a line for each frame, and no other: six fields with tabs between them.
  number     from 0
  time       in ms from the recording's start, 20 a frame
  offset     of the frame's first octet, from 0, header included
  type       0 to 9, 14 or 15
  quality    0 bad, 1 good
  class      speech good, speech bad, comfort first, comfort update, comfort bad, lost or empty
At a refused frame the lines before it stay, and the refusal comes on standard error. With several inputs, a line with
the name and a colon comes before each.

  --from FORMAT        the inputs' format: if1, if2 or stored; not needed where the header of the storage format tells it

Exit status: 0 done, 1 refused, 2 wrong use, 3 input or output failed.
";

pub const ROUND_TRIP: &str = "\
usage: adapter round-trip [--from FORMAT] [--via FORMAT] [--request MODE] [INPUT..]

Converts a recording to another format and back, in memory, and prints where it came back unchanged:
  NAME: FORMAT to FORMAT and back: unchanged, N frames
Otherwise it says on standard error which frame is the first that changed, and why. Only IF1 recordings can change: a
frame's mode indication that is not its type, and a mode request that is not the given one, are lost on the way.

  --from FORMAT        the input's format: if1, if2 or stored; not needed where the header of the storage format tells it
  --via FORMAT         the other format; where it is not given, both others in turn
  --request MODE       the mode request of both conversions, 0 to 8; 0 where it is not given

Exit status: 0 unchanged, 1 changed or refused, 2 wrong use, 3 input or output failed.
";

pub const SHEET: &str = "\
usage: adapter sheet check [INPUT..]

Reads a sheet: an ordering table of mode 5, 6, 7 or 8 that a user supplies as text. Prints, for a valid one:
  NAME: valid, mode N, N bits
and otherwise the refusal, on standard error, with the first line that differs from the form, or the numbers that are
missing and the lines that have others in their place.

The text has these lines, each ended by one line feed, and nothing else:
  mode=5
  bits=365
  d0=0
  d1=4
and so on to d364. Modes 5 to 8 have 365, 397, 461 and 477 bits, K, and lines to d(K-1). Numbers are decimal without
leading zeros; behind d0= to d(K-1)= each of 0 to K-1 stands once. d1=4 puts the codec's bit s(5) into d(1) of the core,
as tables B.6 to B.9 of TS 26.201 print it.

Exit status: 0 all are valid, 1 refused, 2 wrong use, 3 input or output failed.
";
