//! What `compare` can be asked for.

pub const USAGE: &str = "compare names                    K1 to K13: name, file and answer in hex
compare sentences                a sentence for each refusal of a step; with the feature
                                 library, after sentences-library
compare view FILE                a run file and its answers in words
compare say FILE                 the refused steps of an answer file in sentences
compare compose FILE             a run in words as a run file, on standard output
compare sum FILE                 the totals by card of a run file
compare load SEED N FILE         a load of N steps for the placement of a run file, on standard output
compare generate SEED COUNT DIR  writes run files and the model's answers
compare stored DIR               writes the runs that crates/runs keeps, with the model's answers
compare views DIR                writes the runs that crates/view keeps, with what view prints
compare says DIR                 writes the inputs that crates/say keeps, with what say prints
compare composes DIR             writes the texts that crates/compose keeps, with what compose writes
compare sums DIR                 writes the runs that crates/sums keeps, with what sums prints
compare loads DIR                writes the inputs that crates/load keeps, with what load writes
compare statistics SEED COUNT    what generated files contain
compare self SEED COUNT          checks the model against itself
compare printed BIN SEED COUNT   runs the program sums of a folder on files
compare loaded BIN SEED COUNT    runs the program load of a folder on seeds, numbers of steps and files
compare roundtrip BIN SEED COUNT runs the programs view and compose of a folder on files and on what
                                 view prints of them, and compose on spoiled texts
compare spoiled SEED ITEM COUNT  the spoiled text of one of them
compare library SEED COUNT       compares the library on files (feature library)
compare steps SEED COUNT         the same, step by step, with what the memories show and panels read
compare states SEED COUNT        compares it on states made by hand, and on K1 to K13
compare sentences-library        compares its sentences
compare write SEED COUNT         compares the run files that it writes from tables
compare loading SEED COUNT       compares the loads that it draws, and its answers to them
compare totals SEED COUNT        compares its totals of logs, also of those of runs

From COUNT 1,000 on, each also fails where the files miss something that they must reach: a load, a
refusal, a code or function taken, a message held, a sum about the top, a kind of message
delivered, a value, a size at its least or most, a limit; where the texts miss a message or an
answer; where the tables or loads miss a refusal, a reason for it, a size or a length of the
output, or the loads a seed or a code; where the logs miss a length, a card, an operand or a
refusal, or those of runs are too few; from 100 on, where the loads of the program miss a refusal,
a sort of arguments, a size or a code; and from 10,000 on, where the states are all of one sort or
miss a result. Of copies read at once runs and states must have each sort: absent registers too,
and in states words of cards that hold none, absent holders, and sizes past their limits.";
