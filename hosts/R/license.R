# Checks a script; if it is accepted, runs it for at most 1,000 steps and prints the values of main's variables.
#
#   Rscript license.R FILE

words <- commandArgs(trailingOnly = TRUE)
if (length(words) != 1L) stop("license.R FILE: a script to check and run")

ended <- nuyardi::station_run(nuyardi::station_script(words), steps = 1000)
print(ended)
quit(status = if (ended$finished) 0L else 1L)
