/* The model's byte lanes against a second form. */
#ifndef SELFLANES_H
#define SELFLANES_H
/* Gives how many were compared, and adds those that differ. */
unsigned long selflanes(unsigned long *differ);
#endif
