MOST_CACHE <- 2e9 # bytes
UNTOUCHED <- 24 * 3600 # seconds; entries that were used since then are not removed

# The folder of prepared feeds, plans and walks. `is_temporary` takes the session's folder, which R removes.
cache_folder <- function(is_temporary = FALSE) {
  if (is_temporary) {
    return(file.path(tempdir(), "ttmr-cache"))
  }
  given <- getOption("ttmr.cache", Sys.getenv("TTM_CACHE"))
  if (nzchar(given)) file.path(given, "r") else tools::R_user_dir("ttmr", "cache")
}

# Returns a checksum of some texts.
digest_of <- function(...) {
  path <- tempfile("ttmr-digest-")
  on.exit(unlink(path))
  writeLines(enc2utf8(as.character(unlist(list(...)))), path, useBytes = TRUE)
  unname(tools::md5sum(path))
}

# Returns a checksum of files, and of all files of folders, with their names.
digest_of_files <- function(paths) {
  all <- unlist(lapply(paths, function(path) {
    if (dir.exists(path)) list.files(path, recursive = TRUE, full.names = TRUE) else path
  }))
  sums <- tools::md5sum(all)
  digest_of(basename(all), ifelse(is.na(sums), "", sums))
}

# Returns a folder with what `make` writes and its object, from the cache if the key is known.
#
# `make(folder)` fills a folder and returns an object whose paths are relative to it. The folder gets its name when it
# is complete, so sessions that make the same entry at once both succeed.
cached <- function(root, kind, key, make, overwrite = FALSE) {
  final <- file.path(root, kind, key)
  stored <- file.path(final, "object.rds")
  if (overwrite || !file.exists(stored)) {
    dir.create(dirname(final), recursive = TRUE, showWarnings = FALSE)
    work <- tempfile(paste0(key, "."), tmpdir = dirname(final))
    dir.create(work)
    on.exit(unlink(work, recursive = TRUE))
    saveRDS(make(work), file.path(work, "object.rds"))
    if (overwrite) {
      unlink(final, recursive = TRUE)
    }
    if (!suppressWarnings(file.rename(work, final)) && !file.exists(stored)) {
      abort_argument("ttmr.cache", "cannot be written", root, "a folder in which you may write")
    }
    limit_cache(root, final)
  }
  Sys.setFileTime(final, Sys.time())
  list(folder = normalizePath(final), object = readRDS(stored))
}

# Removes the entries that were not used for longest, if all entries together are larger than the limit.
limit_cache <- function(root, but) {
  entries <- list.dirs(list.dirs(root, recursive = FALSE), recursive = FALSE)
  used <- file.mtime(entries)
  size_of <- function(entry) sum(file.size(list.files(entry, recursive = TRUE, full.names = TRUE)), na.rm = TRUE)
  sizes <- vapply(entries, size_of, 0)
  for (entry in entries[order(used)]) {
    is_old <- difftime(Sys.time(), file.mtime(entry), units = "secs") > UNTOUCHED
    if (sum(sizes) > getOption("ttmr.most_cache", MOST_CACHE) && isTRUE(is_old) && entry != but) {
      unlink(entry, recursive = TRUE)
      sizes[[entry]] <- 0
    }
  }
}
