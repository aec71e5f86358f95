"""Plans from tables, which `mcfplan` makes. See `man mcf_plan`.

This package decides nothing itself. It hands texts of tables to `mcfplan`, which is proved from
these texts to its answer. The answer repeats the tables; the package writes it as tables, a picture
and a page.

Command line       cli, commands; faults end a run, life reports what is being done
Texts              tables, workbook
The program        programs, answer; told has the sentences about faults
Content            problem (places and routes), roster (persons and things), figures (numbers)
No plan            bottlenecks, competitions
Writing            folder, results, report, pairs, sums, notes, caption, page with flowpage,
                   pairspage and sumspage
Pictures           scene (the content), layout, room, picture with rows and dots, all with drawing
Several plans      diff (of two), compare with comparepage (side by side)
Afterwards         asked (what the plan of a folder was asked of), verify
"""
