# Completes the words of jlreport in fish: its options; for FILE fish completes the names of files by itself.

complete -c jlreport -l columns -x -d 'The columns that the query can name'
complete -c jlreport -l query -x -d 'The query to answer'
complete -c jlreport -l workers -x -d 'How many threads share the work'
complete -c jlreport -l piece -x -d 'How many bytes are worked on at once'
complete -c jlreport -l max-refused -x -d 'How many lines may be refused'
complete -c jlreport -l explain -d 'Print the query in its canonical form, and read no file'
complete -c jlreport -l partial -d 'Print the part, which can be joined with others'
complete -c jlreport -l join -d 'Read parts in place of lines'
complete -c jlreport -l progress -d 'Show on the terminal how far the file is read'
complete -c jlreport -s h -l help -d 'Print help'
complete -c jlreport -s V -l version -d 'Print version'
