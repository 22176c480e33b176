# Fish completion for smilplay. Copy it to ~/.config/fish/completions, or to /usr/share/fish/vendor_completions.d.

function __smilplay_words
    count (commandline --tokenize --cut-at-cursor --current-process)
end

complete --command smilplay --no-files
complete --command smilplay --condition 'test (__smilplay_words) -eq 1' --arguments run --description 'play a session from the standard input'
complete --command smilplay --condition 'test (__smilplay_words) -eq 1' --arguments check --description 'read the loads of a session'
complete --command smilplay --condition 'test (__smilplay_words) -eq 1' --arguments gen --description 'make a session of a number and play it'
complete --command smilplay --condition 'test (__smilplay_words) -eq 1' --arguments audit --description 'judge a diary'
complete --command smilplay --condition 'test (__smilplay_words) -eq 2; and contains gen (commandline --tokenize --cut-at-cursor)' --arguments '(seq 1 900)' --description 'number of a session'
