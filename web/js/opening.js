// How files get into the page: chosen, dropped or pasted. None leaves the page.

class Opening {
  constructor(page) {
    this.page = page;
    find('file').addEventListener('change', event => this.openFile(event.target.files[0]));
    find('paste').addEventListener('click', () => { find('text').value = ''; find('dialog').showModal(); });
    find('cancel').addEventListener('click', () => find('dialog').close());
    find('read').addEventListener('click', () => { find('dialog').close(); page.openText(find('text').value); });
    window.addEventListener('paste', event => this.pasted(event));
    window.addEventListener('dragover', event => this.dragged(event));
    window.addEventListener('dragleave', event => this.dragged(event, event.relatedTarget !== null));
    window.addEventListener('drop', event => this.dropped(event));
  }

  async openFile(file) {
    if (!file)
      return;
    find('file').value = '';
    try {
      this.page.open(file.name, new Uint8Array(await file.arrayBuffer()));
    } catch (error) {
      this.page.refuse(file.name, error);
    }
  }

  pasted(event) {
    if (find('dialog').open)
      return;
    const { files } = event.clipboardData;
    if (files.length)
      this.openFile(files[0]);
    else
      this.page.openText(event.clipboardData.getData('text'));
    event.preventDefault();
  }

  dragged(event, isOver = true) {
    event.preventDefault();
    document.body.classList.toggle('dragged', isOver);
  }

  dropped(event) {
    event.preventDefault();
    document.body.classList.remove('dragged');
    const { files } = event.dataTransfer;
    if (files.length)
      this.openFile(files[0]);
    else
      this.page.openText(event.dataTransfer.getData('text'));
  }
}
