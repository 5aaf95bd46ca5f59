//! What --help says.

pub const USAGE: &str = "\
usage: btpu send --frame-size P --first N [--draft D] [--state FILE] FILE...
       btpu receive [--draft D] [--window W] [--state FILE] [--out DIR]
       btpu record FILE
       btpu play FILE [--messages N]
       btpu inspect [--draft D] [--window W] [FILE]
       btpu [COMMAND] --help | --version
";

pub const ALL: &str = "
Bundle transfer over frames, in one direction. Frames go from command to
command as lines of hex.

  send     cuts files into frames
  receive  puts bundles together from frames as they come
  record   keeps frames as they come in a recording
  play     lists what a fresh receiver makes of a recording
  inspect  shows the messages of frames in words, and the receiver's window

A line has one frame: 1 to 2,048 octets as pairs of hex digits, upper or lower
case. Blanks and a carriage return around it are allowed; empty lines and lines
that start with # are passed over.

The protocol has two drafts, draft-ietf-dtn-btpu-02 and draft-ietf-dtn-btpu-00.
send, receive and inspect go by draft 02, or with --draft 00 by draft 00; play
goes by draft 02 alone. A frame does not say of which draft it is: frames of the
other draft are read as if they were of the draft in use. They may be refused,
their transfers may be given up, and a single piece may be handed out as a
bundle.

A receiver has a window of 8 transfers: the greatest transfer number that has
come and those before it. receive and inspect have one of 4 or 16 with --window;
play always has one of 16. What comes of a transfer that is further behind is
passed over without a word, and pieces of it that were held are lost. So mix, or
repeat together, the frames of no more transfers than the smallest window of a
board on the link has. send finishes each transfer before it begins the next.

Exit: 0 if all went well, also where the reader of standard output left; 1 if
something could not be read or written or was damaged, or if there were bad
lines or refused frames; 2 for a command line that makes no sense.
";

pub const SEND: (&str, &str) = (
    "usage: btpu send --frame-size P --first N [--draft D] [--state FILE] FILE...\n",
    "
Cuts each FILE, a bundle of 1 to 4,096 octets, into frames and writes them to
standard output, one a line in hex. FILE - is standard input. All files are
read before the first frame is written; if one can't be sent, nothing is. The
last line on standard error has the next transfer number.

  --frame-size P  octets of a frame, 128 to 2048
  --first N       number of the first transfer, 0 to 4294967295
  --draft D       draft of the frames, 00 or 02; 02 if it is left out
  --state FILE    keeps the sender's state over runs. The first run makes the
                  file and needs frame size and number; later runs take both
                  from it, so that numbers go on by themselves, and the draft,
                  which they tell if it is 00. A --frame-size or --draft that
                  differs from the file's is refused. Numbers are stored as
                  taken before their frames are written: after a crash some may
                  be left out, and none is used again.

FILE.lock and FILE.new beside the state file belong to a run; a killed run may
leave them behind.
",
);

pub const RECEIVE: (&str, &str) = (
    "usage: btpu receive [--draft D] [--window W] [--state FILE] [--out DIR]\n",
    "
Reads frames from standard input, one a line in hex, and writes a line for each
bundle as soon as its last piece has come:

  bundle NUMBER LENGTH HEX   NUMBER is - for a bundle that came in one message

A bad line or a refused frame is told on standard error, with its line, and the
next line is taken. At the end standard error has the counts, and before them
the transfers given up that are in the window, if there are any.

  --draft D     draft of the frames, 00 or 02; 02 if it is left out. Frames of
                the other draft are not told apart: see btpu --help
  --window W    how many transfers are kept at a time, 4, 8 or 16; 8 if it is
                left out. Older ones are passed over: see btpu --help
  --state FILE  keeps the receiver's state over restarts. It is stored when all
                bundles before it are out: at once after a frame, but not sooner
                than 20 ms after the last time, and at the end. After a crash a
                bundle may come twice; only what came after the last store is
                lost. A file that is damaged is refused and left as it is.
                Draft and window are kept too: a run without --draft or --window
                goes on with them, and tells a draft that is not 02 and a window
                that is not 8; a --draft or --window that differs is refused. A
                file from before windows could be chosen has window 16, which is
                told, and stored in it.
  --out DIR     writes each bundle to a file of its own in DIR, which is there
                as a whole or not at all: COUNT-NUMBER.bundle. Its name stands
                on standard output in the place of HEX. COUNT goes on over
                restarts, so that names sort in order of arrival.

FILE.lock and FILE.new beside the state file belong to a run; a killed run may
leave them behind.
",
);

pub const RECORD: (&str, &str) = (
    "usage: btpu record FILE\n",
    "
Reads frames from standard input, one a line in hex, and keeps them in FILE as a
recording. FILE is replaced as a whole, while input comes and at its end, so
that it is a recording of the frames so far even if the command is stopped. A
recording holds at most 1,024 frames and 61,440 octets: at a frame that would
pass that, the command ends with 1 and the frames before it are kept. Bad lines
are told on standard error and passed over.

Frames are kept as they are, whatever their draft, and the recording does not
name it. btpu play reads them as draft 02: to see frames of draft 00 use btpu
inspect --draft 00.

FILE.lock and FILE.new beside the recording belong to a run; a killed run may
leave them behind.
",
);

pub const PLAY: (&str, &str) = (
    "usage: btpu play FILE [--messages N]\n",
    "
Plays a recording on a fresh receiver of draft 02 with a window of 16 and writes
a line for each bundle, as btpu receive does:

  bundle NUMBER LENGTH HEX   NUMBER is - for a bundle that came in one message

Standard error has the frames refused, in words, the transfers given up that are
in the window at the end, if there are any, and the count of messages. FILE - is
standard input. Frames of draft 00 are read as draft 02 too: see btpu --help. A
board with a smaller window may hand out fewer bundles of the same frames: use
btpu inspect --window to see which.

  --messages N  stops after N messages; a run of padding is one message
",
);

pub const INSPECT: (&str, &str) = (
    "usage: btpu inspect [--draft D] [--window W] [FILE]\n",
    "
Shows the messages of each frame in words (type, transfer number, index, length,
hints), the bundles that it completes, and the window of the receiver after it:
what is held and what is missing of each transfer. A refused frame is shown up
to its bad message, with the refusal. FILE has frames in hex, one a line, or is
a recording: its content decides. Without FILE, or with -, it is standard input.

  --draft D   draft by which frames and window are shown, 00 or 02; 02 if it is
              left out. A recording does not name its draft: its frames are
              shown by D too.
  --window W  how many transfers the receiver keeps at a time, 4, 8 or 16; 8 if
              it is left out. btpu play keeps 16.
",
);
