minimize 1 subject to { };
