# The sequences of .2bit files, as rtracklayer reads them: file, name and letters, with tabs between.
suppressPackageStartupMessages(library(rtracklayer))
for (path in commandArgs(TRUE)) {
    got <- import(TwoBitFile(path))
    if (length(got) > 0) cat(paste(path, names(got), toupper(as.character(got)), sep = "\t"), sep = "\n")
}
