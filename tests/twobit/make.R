suppressPackageStartupMessages(library(rtracklayer))
suppressPackageStartupMessages(library(Biostrings))
args <- commandArgs(TRUE)
set.seed(105)
letters_of <- function(n, among) paste(sample(among, n, replace = TRUE), collapse = "")
acgt <- c("A", "C", "G", "T")
# Each size from 1 to 40, without N.
small <- sapply(1:40, letters_of, among = acgt)
names(small) <- paste0("plain", 1:40)
export(DNAStringSet(small), TwoBitFile(file.path(args[1], "rtracklayer-plain.2bit")))
# N at every place: runs at the front, at the end, single ones, all.
some <- c(sapply(1:60, letters_of, among = c(acgt, "N")), sapply(1:20, letters_of, among = c("A", rep("N", 9))), sapply(1:9, letters_of, among = "N"),
          paste0(strrep("N", 50), letters_of(900, acgt), strrep("N", 51)))
names(some) <- paste0("n", seq_along(some))
export(DNAStringSet(some), TwoBitFile(file.path(args[1], "rtracklayer-n.2bit")))
# A long one, and names of 1 and of 255 bytes.
long <- c(letters_of(20000, c(rep(acgt, 30), "N")), "ACGTN", letters_of(1023, acgt))
names(long) <- c("l", strrep("x", 255), "chr1 with words")
export(DNAStringSet(long), TwoBitFile(file.path(args[1], "rtracklayer-long.2bit")))
