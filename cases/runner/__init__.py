r"""Runs the built programs over the worked cases of the tables of cases/, and compares what they put.

A case is one line of the table: name, stage, command, standard output, standard error, status, and the files that it
makes. In a field `\n` is a line end and `-` says that nothing is there. Paths are relative to cases/; a word OUT.x in a
command is a file that the program makes in a scratch folder, and the last field names the file that it must equal. The
cases of standard.tsv read or write the standard streams by the name `-`; a command there that ends in `< FILE` has that
file as standard input. In lines of JSON seconds and steps are compared as 0, and what engines counted as nothing, but
that no clause and no core that the solver learned was refused.

Only the cases whose programs are built so far are due (`STANDING`). A stimulus that `aigmc check` prints for a
violation is confirmed by `aigcheck run`; where it answers that the property holds, it is asked for the certificate,
which `aigcheck safe` accepts. A case that names no engine is asked of IC3 alone too. A case of `aigmc certify`,
`aigmc recertify` or `aigmc adopt-witness` makes a certificate that `aigcheck safe` accepts, or nothing. A case of `aigmc all` is asked for the
folder with its evidence too: that has a file for each verdict but an unknown, and `aigcheck all` accepts these, finds
none for the others, counts them, and has the status that the verdicts have. Behind them, each ordered circuit of the
cases is converted to binary and back, which must give the same text.

A line of texts.tsv is one case too: what is done, one text or two, and what is wanted. In a text `\n`, `\t` and `\\`
are those bytes, `\x` with two digits any other, and `{3 x}` is three times the byte x.

    to-ascii, to-binary   the text that `aigmc convert` makes, or its fault
    last-line             the last line of the ASCII text that it makes
    cut                   each beginning of the text is refused by fault 6 at its length
    sim                   what `aigmc sim` prints of a circuit and a stimulus, or its fault
    cut-sim               each beginning of the stimulus is refused by fault 84 at its length
    safe, run             what `aigcheck` prints of a circuit and a certificate or a stimulus
    check                 what `aigmc check -p b0` prints with these options; `aigcheck` accepts its evidence
    times                 how many times the run has that it prints
    clauses               the clauses of the certificate that it makes
    certify               what `aigcheck` says of the certificate of b0 that `aigmc certify` makes of clauses; `no` where
                          they are no invariant; or its fault
    cut-certify           each beginning of a certificate, as clauses, is refused by fault 6 at its length, but no bytes
    to-witness            the witness circuit that `aigmc to-witness` makes of a certificate, or its fault

A line of verdicts.tsv is a small circuit with constraints, resets of all kinds and many properties, and what exhaustive
search (`cases/exhaustive`) says of one of them. All engines in turn have to answer so, with the shortest run of a bad
literal, and IC3 alone; `aigcheck` accepts the evidence.

Where Yosys and Icarus Verilog are installed, `cases/simulated` and `robustness/verilog` compare circuits of
SystemVerilog designs with simulation: two cases, which are skipped elsewhere and named as skipped. So is the case of
ABC's invariants (`cases/findings abc`) where ABC is not installed.

Seventeen cases more: `cases/documents` looks for what the documents name; `cases/quoted` runs the commands that they
quote; `tools/trust` compares the definitions to believe with what docs/TRUST.md lists and counts; `cases/words` looks
for old words in the crates that search; `cases/ticks` compares where a step of a budget is taken, and where a list is
filled by a number, with its lists; `cases/waveform` reads waveforms back; `cases/findings` hands other tools' findings
to `aigmc certify` and `aigmc witness`; `cases/recertified` judges certificates of version 3 of random circuits; the
sources make the witnesses of refused memory and of used-up ids in one file each; a chain of 1,000,000 gates that is
given last first is converted, and a cycle of as many is refused, under a stack of 64 KiB; evidence that never ends, or
that is long and says little at once, is judged in 64 MiB of memory; `explain` of both programs says of each number what
docs/faults.tsv says; `robustness/refused` refuses the growths of the cases of cases.tsv in turn, `robustness/devices`
fails their calls of the system, and `robustness/again` refuses the growths of tests that make a call again then, all by
libraries that a C compiler `cc` makes; and `robustness/cut` cuts their texts at every length.

The cases of `cases/scripts` are of the scripts of bin/ around the programs, those of `cases/library` of the library for
C, which `tools/library` has to have built, those of `cases/large` of circuits of 200,000 gates, those of
`cases/witness_judge` of `tools/witness_judge`, those of `cases/witnesses` of the witness circuits that are made and
adopted, those of `cases/registers` of random circuits with registers that are equal, those of `cases/justice` of
justice properties of random circuits, and those of `cases/induction` of what k-induction says of random circuits; each
counts. As many of the tools run side by side as there are processors, but `cases/scripts`, which looks at the clock.

The line before the last one has the cases that were skipped, which count neither as passed nor as failed. The last line
is 'N passed, M failed'; the status is 0 only where nothing failed.
"""
