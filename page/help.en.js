/** The help in English (dialogs.js). */
export const help = `
A name opens it; ⋯ in its row has what you may do with it.
**Add text** adds lines at the end of a document, also while somebody else does. **Edit** replaces all of it, and shows
  both texts if somebody changed it meanwhile; with its tick the old version goes to your trash.
**Share**: type a name, and press what they may do.
**Remove** moves it to your trash, if you have one: it stands beside the list (in a narrow window behind ☰).
A new password comes from whoever runs the room.
A request without an answer is sent again, also after a reload, and done once.
Keys: **Ctrl /** goes to the search, **Alt ↑** to the folder above, **Ctrl Z** undoes; in the list **/** searches,
  **F2** renames, **Delete** removes, **Ctrl A** chooses all, **Ctrl X** or **Ctrl C** and then **Ctrl V** move or copy
  into the folder shown, and letters go to a name; **Ctrl S** ends what is written.
`;
