solve { x = ; };
search { };
