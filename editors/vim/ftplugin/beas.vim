setlocal commentstring=--\ %s
