# fish completion of parsolve-hoa
complete -c parsolve-hoa -s h -l help -d 'show this help message and exit'
complete -c parsolve-hoa -l outs -r -F -d 'the propositions that the controller sets, separated by commas'
