# fish completion of parsolve-pg
complete -c parsolve-pg -s h -l help -d 'show this help message and exit'
complete -c parsolve-pg -l min -d 'the least priority that recurs decides, not the greatest'
