;;; forec-mode.el --- ForeC programs: highlighting, and what forec lint finds  -*- lexical-binding: t; -*-

;; Package-Requires: ((emacs "26.1"))

;;; Commentary:
;; `M-x compile' runs `forec lint' on the file, and `next-error' goes from place to place.  With `flymake-mode' what it finds is shown
;; when the file is saved.  The command is `forec' on the path, or what `forec-command' names.

;;; Code:
(require 'cc-mode)
(require 'compile)
(require 'flymake)
(require 'json)

(defgroup forec nil "ForeC programs." :group 'languages)

(defcustom forec-command "forec" "The command forec: a name on the path, or a file." :type 'string :group 'forec)

(defvar forec-font-lock-keywords
  `((,(regexp-opt '("int" "void" "const" "input" "output" "shared") 'symbols) . font-lock-type-face)
    (,(regexp-opt '("combine" "all" "new" "mod" "with" "par" "pause" "weak" "abort" "immediate" "when" "if" "else" "while" "for" "return")
                  'symbols)
     . font-lock-keyword-face)
    ("\\_<\\(?:0[0-7]*[89]\\w*\\|0[xX]?\\w*[g-wyzG-WYZ_]\\w*\\|[1-9][0-9]*[A-Za-z_]\\w*\\)\\_>" . font-lock-warning-face)
    ("\\(\\_<[A-Za-z_]\\w*\\)\\s-*(" 1 font-lock-function-name-face)
    ("#\\s-*[0-9]\\w*" . font-lock-preprocessor-face))
  "What is shown how in a ForeC program.")

(defun forec--findings (text file)
  "What TEXT, the JSON of `forec lint', has found in FILE.
Each is a list of a line, a column, a level and a message."
  (let ((json-object-type 'alist) (json-array-type 'list))
    (mapcar (lambda (each)
              (let-alist each
                (list .line .column (if (equal .severity "error") :error :warning) (format "%s [%s]" .text .kind))))
            (seq-filter (lambda (each) (equal (cdr (assq 'path each)) file)) (json-read-from-string text)))))

(defun forec--diagnostics (buffer text file)
  "The diagnostics of flymake for BUFFER.
TEXT is the JSON of `forec lint' for FILE."
  (with-current-buffer buffer
    (save-excursion
      (save-restriction
        (widen)
        (mapcar (lambda (each)
                  (goto-char (point-min))
                  (forward-line (1- (nth 0 each)))
                  (let ((at (or (byte-to-position (+ (position-bytes (point)) (1- (nth 1 each)))) (point))))
                    (goto-char at)
                    (skip-chars-forward "A-Za-z0-9_")
                    (flymake-make-diagnostic buffer at (max (point) (min (1+ at) (point-max))) (nth 2 each) (nth 3 each))))
                (forec--findings text file))))))

(defun forec-flymake (report &rest _)
  "Tells flymake by REPORT what `forec lint' finds in the file of this buffer."
  (let* ((source (current-buffer)) (file (buffer-file-name)) (output (generate-new-buffer " *forec lint*")))
    (if (or (not file) (buffer-modified-p))
        (kill-buffer output)
      (make-process
       :name "forec-lint" :buffer output :noquery t :connection-type 'pipe
       :command (list forec-command "lint" "--check" "--format" "json" "--" file)
       :stderr (get-buffer-create " *forec lint errors*")
       :sentinel (lambda (process _)
                   (when (memq (process-status process) '(exit signal))
                     (unwind-protect
                         (when (buffer-live-p source)
                           (condition-case fault
                               (funcall report (forec--diagnostics source (with-current-buffer output (buffer-string)) file))
                             (error (funcall report :panic :explanation (error-message-string fault)))))
                       (kill-buffer output))))))))

;;;###autoload
(define-derived-mode forec-mode prog-mode "ForeC"
  "A mode for ForeC programs."
  :syntax-table c-mode-syntax-table
  (setq-local comment-start "// ")
  (setq-local comment-end "")
  (setq-local font-lock-defaults '(forec-font-lock-keywords))
  (setq-local c-basic-offset 2)
  (c-initialize-cc-mode t)
  (c-init-language-vars-for 'c-mode)
  (c-common-init 'c-mode)
  (setq-local font-lock-defaults '(forec-font-lock-keywords))
  (setq-local indent-tabs-mode nil)
  (when buffer-file-name
    (setq-local compile-command
                (format "%s lint --check --format gcc -- %s" forec-command (shell-quote-argument (file-name-nondirectory buffer-file-name)))))
  (add-hook 'flymake-diagnostic-functions #'forec-flymake nil t))

;;;###autoload
(add-to-list 'auto-mode-alist '("\\.forec\\'" . forec-mode))

(provide 'forec-mode)
;;; forec-mode.el ends here
