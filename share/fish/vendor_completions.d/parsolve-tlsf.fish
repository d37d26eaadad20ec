# fish completion of parsolve-tlsf
complete -c parsolve-tlsf -s h -l help -d 'show this help message and exit'
complete -c parsolve-tlsf -l param -r -F -d 'another value of a parameter'
complete -c parsolve-tlsf -l formula -d 'only the formula'
complete -c parsolve-tlsf -l outs -d 'only the outputs'
complete -c parsolve-tlsf -l mealy -d 'a formula for Mealy machines'
complete -c parsolve-tlsf -l moore -d 'a formula for Moore machines'
