# data.table's rolling join of the tables in a folder, for bench/peers: peers.R FOLDER STRATEGY RUNS
#
# Both tables are keyed beforehand, one thread; the join tells row numbers alone. Prints the version and the median of the
# processor time in nanoseconds; writes the matches, a right row's number for each left row or -1, as 64-bit floats.
suppressPackageStartupMessages(library(data.table))
setDTthreads(1)
words <- commandArgs(trailingOnly = TRUE)
folder <- words[1]
strategy <- words[2]
runs <- as.integer(words[3])

# A column of 64-bit numbers that all fit in 31 bits: the lower half of each.
column <- function(name) {
  path <- file.path(folder, name)
  halves <- readBin(path, "integer", n = file.size(path) / 4, size = 4, endian = "little")
  if (length(halves) == 0) integer(0) else halves[c(TRUE, FALSE)]
}

# A table, keyed by its group, where it has any, and its key.
table_of <- function(side) {
  groups <- column(paste0(side, ".groups"))
  keys <- column(paste0(side, ".keys"))
  table <- if (length(groups) > 0) data.table(g = groups, k = keys) else data.table(k = keys)
  setkeyv(table, names(table))
  table
}

left <- table_of("left")
right <- table_of("right")
roll <- list(backward = Inf, forward = -Inf, nearest = "nearest")[[strategy]]
mult <- if (strategy == "forward") "first" else "last"
join <- function() right[left, roll = roll, mult = mult, which = TRUE]

times <- numeric(runs)
for (run in seq_len(runs)) {
  gc()
  start <- proc.time()
  rows <- join()
  took <- proc.time() - start
  times[run] <- took[["user.self"]] + took[["sys.self"]]
}
matches <- ifelse(is.na(rows), -1, rows - 1)
writeBin(as.double(matches), file.path(folder, "matches.peer"), size = 8, endian = "little")
cat(as.character(packageVersion("data.table")), format(round(median(times) * 1e9), scientific = FALSE), "\n")
