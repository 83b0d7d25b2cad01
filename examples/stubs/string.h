unsigned long strlen(const char *s);
