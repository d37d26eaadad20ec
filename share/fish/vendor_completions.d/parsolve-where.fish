# fish completion of parsolve-where
complete -c parsolve-where -s h -l help -d 'show this help message and exit'
