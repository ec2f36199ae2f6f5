/* A folder of files that is there when it is whole: made beside its place, then renamed. One at a time. */
#ifndef FOLDER_H
#define FOLDER_H

/* A folder to be made there; where something stands that is no empty folder, the command ends. */
void folder_begin(const char *path);

/* The path of a file in the folder while it is made. */
const char *folder_file(const char *name);

/* It is whole: in its place. */
void folder_keep(void);

#endif
