# Kakoune: copy to ~/.config/kak/autoload/. Colours, tabs, and the server `station lsp`
# for kak-lsp from 18 on; an earlier one wants kak-lsp.toml.

hook global BufCreate .*\.script %{
    set-option buffer filetype station
}

hook global WinSetOption filetype=station %{
    require-module station
    set-option window indentwidth 0
    add-highlighter window/station ref station
    hook -once -always window WinSetOption filetype=.* %{
        remove-highlighter window/station
    }
}

# Without kak-lsp there is no such option.
hook global BufSetOption filetype=station %{
    try %{
        set-option buffer lsp_servers %{
            [station]
            command = "station"
            args = ["lsp"]
            root_globs = [".git", ".hg"]
        }
    }
}

provide-module station %{
    add-highlighter shared/station group
    add-highlighter shared/station/name regex '\t[A-Za-z][A-Za-z0-9]*' 0:variable
    add-highlighter shared/station/word regex '^(class|field|method|requires|ensures|main|var|set|let|add|sub|new|call|open|shut|return|assert|release|if|else|join|loop|again|end)(?=\t|$)' 1:keyword
    add-highlighter shared/station/atom regex '(?<=\t)(acc|read|chain|eq|ne)(?=\t)' 1:operator
    add-highlighter shared/station/star regex '^requires\t(\*)$' 1:operator
    add-highlighter shared/station/type regex '(?<=\t)int(?=\t|$)' 0:type
    add-highlighter shared/station/reserved regex '(?<=\t)(null|this|result)(?=[.\t]|$)' 1:builtin
    add-highlighter shared/station/number regex '(?<=\t)(0|-?[1-9][0-9]*)(?=\t|$)' 1:value
    add-highlighter shared/station/bad regex '[^\t\n!-~]' 0:Error
}
