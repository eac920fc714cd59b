" As for sheets.
runtime! ftplugin/cardsheet.vim
