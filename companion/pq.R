# Orders of the columns of a 0-1 matrix, by pq, for R. It needs base R alone:
#
#   source("companion/pq.R")
#   found <- pq_order(m)      # a matrix or data frame; what is TRUE or above 0 counts, and NA is refused
#   found$answer              # "yes" or "no"
#   m[found$rows, found$columns]
#   pq_core(m)                # after a no: rows that contradict one another, of which none can be left out
#
# The argument `pq` is the path of the program, or of the library libpq.so that scripts/library.py builds. Without it that is the program
# which the variable PQ names; else the library that PQ_LIBRARY names; else that of this checkout, or of what was handed out, if it is of the
# version that lies here; else the pq of this checkout, or the one on the PATH. Each answer was judged by a second call of pq. This file
# itself isn't proved.

pq_home <- local({
  file <- NULL
  for (frame in rev(sys.frames())) if (is.null(file) && !is.null(frame$ofile)) file <- frame$ofile
  if (is.null(file)) NULL else dirname(dirname(normalizePath(file)))
})

# The path of pq: of the program, or of the library. Of a library that lies here and can't be taken it is said.
pq_program <- function() {
  named <- c(Sys.getenv("PQ"), Sys.getenv("PQ_LIBRARY"))
  if (any(nzchar(named))) return(named[nzchar(named)][1])
  own <- function(...) if (is.null(pq_home)) "" else file.path(pq_home, ...)
  library <- Filter(file.exists, c(own("dist", "libpq.so"), own("libpq.so")))
  if (length(library)) {
    misfit <- tryCatch({ pq_loaded(library[1]); NULL }, error = conditionMessage)
    if (is.null(misfit)) return(library[1])
    message(misfit, "; the program is called in its place")
  }
  found <- Filter(file.exists, c(own("pq"), unname(Sys.which("pq"))))
  if (!length(found)) stop("there is no pq: give its path, or set PQ")
  found[1]
}

# The library at a path, loaded. It is an error where it is none, or not of the version that lies here.
pq_loaded <- function(path) {
  found <- dyn.load(path)
  old <- function(missing) stop(path, ": this is no library of pq, or an old one")
  told <- .C(tryCatch(getNativeSymbolInfo("pq_r_version", found), error = old), version = raw(64), length = as.double(64))
  version <- rawToChar(told$version[seq_len(told$length)])
  here <- if (is.null(pq_home)) version else readLines(file.path(pq_home, "VERSION"), n = 1)
  if (version != here) stop(path, ": this is a library of pq ", version, ", and not of ", here)
  found
}

# A call of pq over files with these bytes, whose names follow the words: the bytes of its reply, its lines and its status. A fault of pq is
# an error with pq's own line.
pq_call <- function(pq, words, files) {
  ask <- if (grepl("\\.so$", pq)) pq_by_library else pq_by_program
  said <- ask(pq, words, files)
  if (!said$status %in% c(0L, 1L)) stop(if (nzchar(said$line)) said$line else paste("pq ended with status", said$status))
  text <- rawToChar(said$reply)
  list(reply = said$reply, lines = if (nzchar(text)) strsplit(text, "\n", fixed = TRUE)[[1]] else character(), status = said$status)
}

# A call of the library.
pq_by_library <- function(path, words, files) {
  entry <- getNativeSymbolInfo("pq_r_run", pq_loaded(path))
  if (any(grepl("[\r\n]", words))) return(list(status = 2L, reply = raw(), line = "pq: words"))
  text <- charToRaw(paste0(c(words, c("1", "2")[seq_along(files)]), "\n", collapse = ""))
  given <- c(files, list(raw(), raw()))[1:2]
  room <- 2^20
  repeat {
    found <- .C(entry, text, as.double(length(text)), given[[1]], as.double(length(given[[1]])), given[[2]],
                as.double(length(given[[2]])), reply = raw(room), written = as.double(room), line = raw(64), told = as.double(64), status = 0L)
    if (found$status != 5L) break
    room <- room * 8
  }
  list(status = found$status, reply = found$reply[seq_len(found$written)], line = sub("\n$", "", rawToChar(found$line[seq_len(found$told)])))
}

# A call of the program.
pq_by_program <- function(path, words, files) {
  names <- vapply(files, function(bytes) { name <- tempfile(); writeBin(bytes, name); name }, "")
  out <- tempfile()
  errors <- tempfile()
  on.exit(unlink(c(names, out, errors)))
  status <- suppressWarnings(system2(path, shQuote(c(words, names)), stdout = out, stderr = errors))
  line <- c(readLines(errors, warn = FALSE), "")[1]
  list(status = status, reply = readBin(out, "raw", file.size(out)), line = line)
}

# The ones of a matrix as TRUE and FALSE.
pq_ones <- function(m) {
  m <- as.matrix(m)
  if (anyNA(m)) stop("the matrix has NA: say what counts first, as m[is.na(m)] <- 0")
  if (!is.logical(m) && !is.numeric(m)) stop("the matrix has to be logical or numeric")
  if (ncol(m) == 0) stop("the matrix has no column")
  m > 0
}

# The matrix as the bytes of a file of pq: each row names its columns.
pq_file <- function(ones) {
  rows <- if (nrow(ones) == 0) character() else apply(ones, 1, function(row) paste(which(row), collapse = " "))
  charToRaw(paste0(c(ncol(ones), rows), "\n", collapse = ""))
}

# Stops unless pq judges a text valid.
pq_judge <- function(pq, command, file, reply) {
  said <- pq_call(pq, c(command, "rows"), list(file, reply))
  if (!identical(said$lines, "valid")) stop(paste("the proof did not check:", paste(said$lines, collapse = " ")))
}

# The numbers of the line of a verdict that begins with a word.
pq_numbers <- function(lines, word) {
  line <- grep(paste0("^", word, " "), lines, value = TRUE)[1]
  as.integer(strsplit(line, " ", fixed = TRUE)[[1]][-1])
}

# Whether there is an order of the columns in which the ones of every row stand together, and one such order. `columns` and `rows` are
# permutations: the rows by their first, then their last place. `tree` is the PQ-tree of all orders, `cycle` the lines that show a no.
pq_order <- function(m, pq = pq_program()) {
  ones <- pq_ones(m)
  file <- pq_file(ones)
  said <- pq_call(pq, c("solve", "rows"), list(file))
  pq_judge(pq, "check", file, said$reply)
  if (said$status == 1L) {
    at <- grep("^cycle ", said$lines)
    return(list(answer = "no", cycle = said$lines[seq(at + 1, length(said$lines) - 1)]))
  }
  columns <- pq_numbers(said$lines, "order")
  first <- last <- rep(Inf, nrow(ones))
  for (row in seq_len(nrow(ones))) {
    places <- which(ones[row, columns])
    if (length(places)) { first[row] <- places[1]; last[row] <- places[length(places)] }
  }
  rows <- order(first, last)
  tree <- sub("^tree ", "", grep("^tree ", said$lines, value = TRUE)[1])
  list(answer = "yes", columns = columns, rows = rows, names = colnames(m)[columns], tree = tree)
}

# Rows that have no order together, while without any one of them the others have one: their numbers, with their names where they have some.
# NULL where the matrix has an order.
pq_core <- function(m, pq = pq_program()) {
  ones <- pq_ones(m)
  file <- pq_file(ones)
  said <- pq_call(pq, c("core", "rows"), list(file))
  if (said$status == 1L) {
    pq_judge(pq, "check", file, said$reply)
    return(NULL)
  }
  pq_judge(pq, "check-core", file, said$reply)
  rows <- as.integer(sub("^row ", "", grep("^row [0-9]+$", said$lines, value = TRUE)))
  if (is.null(rownames(m))) rows else stats::setNames(rows, rownames(m)[rows])
}

# The order as the package seriation has it, for bertinplot(m, pq_permutation(found)).
pq_permutation <- function(found) {
  if (found$answer != "yes") stop("there is no order")
  vector <- function(places) structure(as.integer(places), class = c("ser_permutation_vector", "integer"), method = "pq")
  structure(list(vector(found$rows), vector(found$columns)), class = c("ser_permutation", "list"))
}
