"""The companion of the proved program: what `kernelyet` knows besides the program's own commands.

A module a topic. The shared readers and writers: numbers, memory_files, records, lists, maps, pools, kernels, dumps;
running the program: program; how a word is taken, refused and helped with: words, parsers, refusals, progress.
"""
