"""try.py KIT WORDS..: `rt try WORDS..` by the kit whose programs are in the folder KIT, without the check for reserved
names that `rt` runs beside it: it takes as long as the build, and of a mutant it says nothing."""
import sys

sys.path.insert(0, sys.argv[1])
import rtlib

rtlib.RATTLE = "true"
sys.exit(rtlib.main("try", *sys.argv[2:]))
